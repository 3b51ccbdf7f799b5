"""What make install puts where, that it works from there, and that make uninstall leaves nothing; versions; what texts say of it."""
import glob, os, re, shutil, stat, subprocess, tempfile, unittest

from common import PROGRAM, SAMPLE, TOP, needs, needs_program, run

PROGRAMS = ['dvipbm', 'dvispool']
# In the place of a program: its words, the folder of its fonts, and whether it was called.
STAND_IN = '#!/bin/sh\necho "${0##*/} $*, fonts in $DVIPBM_FONTS" >&2\nexit 7\n'


def text_of(name):
    with open(f'{TOP}/{name}', encoding='utf-8') as file:
        return file.read()


def commands():
    """The commands that users call, besides the program: the scripts that can be run, but for CUPS's filter."""
    scripts = [path for path in glob.glob(f'{TOP}/docs/recipes/*') if os.access(path, os.X_OK)]
    return sorted(['dvipbm-collect-fonts', *(f'dvipbm-{os.path.basename(path)}' for path in scripts if not path.endswith('/cups-filter'))])


@needs('make')
class Installed(unittest.TestCase):
    def setUp(self):
        place = tempfile.TemporaryDirectory()
        self.addCleanup(place.cleanup)
        self.room, self.tree = place.name, f'{place.name}/tree'
        for folder in ('docs/man', 'docs/recipes', 'tools'):
            shutil.copytree(f'{TOP}/{folder}', f'{self.tree}/{folder}', ignore=shutil.ignore_patterns('tests', '__pycache__'))
        for file in ('Makefile', 'VERSION'):
            shutil.copy(f'{TOP}/{file}', self.tree)
        for name in PROGRAMS:
            self.program(STAND_IN.encode(), name)

    def program(self, data, name='dvipbm'):
        os.makedirs(f'{self.tree}/crates/{name}/out', exist_ok=True)
        with open(f'{self.tree}/crates/{name}/out/{name}', 'wb') as file:
            file.write(data)
        os.chmod(f'{self.tree}/crates/{name}/out/{name}', 0o755)

    def make(self, *words):
        """Without what a make above this one hands on."""
        environment = {name: value for name, value in os.environ.items() if name not in ('MAKEFLAGS', 'MAKELEVEL', 'MFLAGS', 'JOBS', 'PREFIX', 'DESTDIR')}
        ran = subprocess.run(['make', *words], cwd=self.tree, env=environment, stdin=subprocess.DEVNULL, capture_output=True, text=True)
        self.assertEqual((ran.returncode, ran.stderr), (0, ''), ran.stdout)

    def installed(self, folder):
        return sorted(os.path.relpath(os.path.join(place, name), folder) for place, _, names in os.walk(folder) for name in names)

    def called(self, *words, **more):
        """A command from another folder, where the repository isn't there any more."""
        environment = {name: value for name, value in os.environ.items() if not name.startswith(('DVIPBM', 'DVISPOOL'))}
        os.makedirs(f'{self.room}/elsewhere', exist_ok=True)
        ran = subprocess.run([f'{self.room}/place/bin/{words[0]}', *words[1:]], cwd=f'{self.room}/elsewhere', env={**environment, **more},
                             stdin=subprocess.DEVNULL, capture_output=True, text=True)
        return ran.returncode, ran.stdout, ran.stderr

    def test_what_is_put_where(self):
        self.make('install', f'DESTDIR={self.room}/root', 'PREFIX=/opt/x')
        found = self.installed(f'{self.room}/root')
        self.assertEqual([name for name in found if name.startswith('opt/x/bin/')], sorted(f'opt/x/bin/{name}' for name in [*PROGRAMS, *commands()]))
        self.assertEqual([name for name in found if name.startswith('opt/x/share/man/')],
                         sorted(f'opt/x/share/man/man1/{name}.1' for name in [*PROGRAMS, 'dvipbm-recipes', *commands()]))
        self.assertEqual({name: oct(stat.S_IMODE(os.stat(f'{self.room}/root/{name}').st_mode)) for name in found if name.startswith('opt/x/bin/')},
                         {f'opt/x/bin/{name}': '0o755' for name in [*PROGRAMS, *commands()]})
        self.assertEqual([name for name in found if not name.startswith(('opt/x/bin/', 'opt/x/share/man/man1/', 'opt/x/share/dvipbm/'))], [])
        # The place that is baked in is the one without DESTDIR.
        with open(f'{self.room}/root/opt/x/bin/dvipbm-draw') as file:
            self.assertEqual(file.read().split('\n')[-2], 'exec "/opt/x/share/dvipbm/docs/recipes/draw" "$@"')

    def test_nothing_stays_after_uninstall_but_what_others_put_there(self):
        self.make('install', f'PREFIX={self.room}/place')
        for other in ('bin/dvipbm-of-another', 'share/man/man1/dvipbm-of-another.1'):
            with open(f'{self.room}/place/{other}', 'w') as file:
                file.write('')
        self.make('uninstall', f'PREFIX={self.room}/place')
        self.assertEqual(self.installed(f'{self.room}/place'), ['bin/dvipbm-of-another', 'share/man/man1/dvipbm-of-another.1'])
        self.assertEqual(sorted(os.listdir(f'{self.room}/place/share')), ['man'])

    def test_a_place_that_is_relative_or_has_a_space_in_its_name(self):
        for place in ('in tree', f'{self.room}/a place'):
            self.make('install', f'PREFIX={place}')
            installed = os.path.join(self.tree, place)
            ran = subprocess.run([f'{installed}/bin/dvipbm-to-tiff'], cwd=self.room, stdin=subprocess.DEVNULL, capture_output=True, text=True)
            self.assertEqual((ran.returncode, ran.stderr), (64, 'usage: dvipbm-to-tiff PAGES.pbm PAGES.tiff [RES]\n'))
            self.make('uninstall', f'PREFIX={place}')
            self.assertEqual(self.installed(installed), [])

    def test_each_command_has_help_without_the_repository(self):
        self.make('install', f'PREFIX={self.room}/place')
        shutil.rmtree(self.tree)
        for name in commands():
            for word in ('-h', '--help'):
                status, said, errors = self.called(name, word)
                self.assertEqual((status, errors), (0, ''), name)
                self.assertIn(name.removeprefix('dvipbm-'), said.split('\n')[0])

    def test_commands_that_lack_their_arguments_say_their_own_name(self):
        self.make('install', f'PREFIX={self.room}/place')
        shutil.rmtree(self.tree)
        for name in ('dvipbm-draw', 'dvipbm-to-tiff', 'dvipbm-many'):
            status, said, errors = self.called(name)
            self.assertEqual((status, said, errors.split(' ')[:2]), (64, '', ['usage:', name]))

    def test_scripts_call_the_program_that_was_installed_with_them(self):
        self.make('install', f'PREFIX={self.room}/place')
        shutil.rmtree(self.tree)
        with open(f'{self.room}/a.dvi', 'wb') as file:
            file.write(b'\xf7\x02')
        status, said, errors = self.called('dvipbm-manifest', 'list', 'there', f'{self.room}/a.dvi')
        self.assertEqual((status, said), (1, ''), errors)
        with open(f'{self.room}/elsewhere/list') as file:
            self.assertRegex(file.read(), r'\n7\t0\t.*\tdvipbm , fonts in there\n\Z')

    def test_the_spool_calls_both_programs_that_were_installed_with_it(self):
        self.make('install', f'PREFIX={self.room}/place')
        shutil.rmtree(self.tree)
        os.makedirs(f'{self.room}/elsewhere/day')
        shutil.copy(f'{SAMPLE}/sample.dvi', f'{self.room}/elsewhere/day')
        status, _, errors = self.called('dvipbm-spool', 'day', SAMPLE)
        self.assertEqual((status, errors.splitlines()[-1]), (1, 'day/sample.dvi: no pages: dvispool ended with 7'), errors)

    @needs_program
    @needs('pamsplit', 'pnmtopng', 'pngtopam')
    def test_a_document_becomes_a_picture_by_what_is_installed(self):
        """With the sample's fonts, all of which lie in the folder already."""
        with open(PROGRAM, 'rb') as file:
            self.program(file.read())
        self.make('install', f'PREFIX={self.room}/place')
        shutil.rmtree(self.tree)
        os.mkdir(f'{self.room}/elsewhere')
        fonts = f'{self.room}/elsewhere/fonts'
        os.mkdir(fonts)
        for name in os.listdir(SAMPLE):
            if name.endswith(('pk', 'tfm')):
                shutil.copy(f'{SAMPLE}/{name}', fonts)
        shutil.copy(f'{SAMPLE}/sample.dvi', f'{self.room}/elsewhere/sample.dvi')
        status, _, errors = self.called('dvipbm-to-png', 'sample.dvi', 'sample')
        self.assertEqual(status, 0, errors)
        picture = subprocess.run(['pngtopam', f'{self.room}/elsewhere/sample-1.png'], capture_output=True, check=True).stdout
        with open(f'{SAMPLE}/sample.dvi', 'rb') as file:
            self.assertTrue(re.sub(rb'\n#[^\n]*', b'', picture) == run(file.read())[1])

    @needs('man', 'groff')
    def test_each_command_has_its_manual_page(self):
        self.make('install', f'PREFIX={self.room}/place')
        for name in [*PROGRAMS, 'dvipbm-recipes', *commands()]:
            ran = subprocess.run(['man', '-M', f'{self.room}/place/share/man', name], env={**os.environ, 'MANPAGER': 'cat', 'PAGER': 'cat', 'LC_ALL': 'C'},
                                 stdin=subprocess.DEVNULL, capture_output=True, text=True)
            self.assertEqual((ran.returncode, name.removeprefix('dvipbm-') in ran.stdout), (0, True), ran.stderr)


class Manual(unittest.TestCase):
    def test_the_page_of_the_recipes_has_each_command(self):
        items = re.findall(r'^\.It Nm (\S+)', text_of('docs/man/dvipbm-recipes.1'), re.M)
        self.assertEqual(sorted(set(items)), commands())

    def test_the_program_s_page_names_what_is_installed(self):
        page = text_of('docs/man/dvipbm.1')
        named = set(re.findall(r'dvipbm-[a-z-]+', page))
        self.assertEqual(named - {*commands(), 'dvipbm-recipes'}, set())
        self.assertTrue({'dvipbm-collect-fonts', 'dvipbm-recipes'} <= named)


class Version(unittest.TestCase):
    def setUp(self):
        self.version = text_of('VERSION').removesuffix('\n')
        self.assertRegex(self.version, r'\A\d+(\.\d+)+\Z')

    def test_the_change_log_begins_with_it(self):
        heads = re.findall(r'^## (\S+)', text_of('CHANGELOG.md'), re.M)
        self.assertEqual(heads[:1], [self.version])

    def test_the_readme_names_it_and_its_tag(self):
        named = re.findall(r'version (\S+), tag `(\S+)`; \[CHANGELOG\.md\]\(CHANGELOG\.md\)', text_of('README.md'))
        self.assertEqual(named, [(self.version, f'v{self.version}')])

    def test_each_page_says_it(self):
        for page in glob.glob(f'{TOP}/docs/man/*.1'):
            with open(page, encoding='utf-8') as file:
                text = file.read()
            self.assertIn(f'\n.ds doc-default-operating-system dvipbm\\~{self.version}\n.Os\n', text)
            self.assertIn(f'\nThis is the page of version {self.version}.\n', text)

    @needs('man', 'groff')
    def test_it_stands_in_the_footer_of_each_page(self):
        for page in glob.glob(f'{TOP}/docs/man/*.1'):
            ran = subprocess.run(['man', '-l', page], env={**os.environ, 'MANPAGER': 'cat', 'PAGER': 'cat', 'LC_ALL': 'C', 'MANWIDTH': '80'},
                                 stdin=subprocess.DEVNULL, capture_output=True, text=True)
            self.assertRegex(ran.stdout.rstrip('\n').split('\n')[-1], rf'\Advipbm {re.escape(self.version)} .* dvipbm {re.escape(self.version)}\Z')

    @needs_program
    def test_the_command_line_has_no_word_for_it(self):
        ran = subprocess.run([PROGRAM, '--version'], stdin=subprocess.DEVNULL, capture_output=True)
        self.assertEqual((ran.returncode, ran.stdout, ran.stderr), (1, b'', b'dvipbm: usage\n'))


if __name__ == '__main__':
    unittest.main()
