"""No recipe fails without a word: each fault has its line and its status, and leaves the file that was there, or none."""
import glob, os, re, shutil, stat, subprocess, tempfile, unittest

from common import PROGRAM, RECIPES, SAMPLE, TOP, definition, document, environment_of, needs, needs_program

# Programs in the place of dvipbm: one draws a page for each byte of WANTED, of as many rows; one draws a page and fails.
DRAWS = '''#!/bin/sh
echo "$*" >>"$ASKED"
cat >"$ASKED.document"
for rows in ${WANTED:-1 2}; do
  printf 'P4\\n8 %d\\n' "$rows"
  head -c "$rows" /dev/zero
done
'''
FAILS = '''#!/bin/sh
cat >/dev/null
printf 'P4\\n8 1\\nx'
echo 'dvipbm: page 2 at 70: stack empty' >&2
exit 3
'''
OLD = b'what was there before'
PAGE = b'P4\n2550 3300\n' + bytes(319 * 3300)


class Room(unittest.TestCase):
    def setUp(self):
        self.room = tempfile.mkdtemp()
        self.addCleanup(shutil.rmtree, self.room)
        self.draws, self.fails = self.program('draws', DRAWS), self.program('fails', FAILS)
        self.write('empty.dvi', b'')
        self.write('blank.dvi', document([b'', b'']))

    def path(self, name):
        return os.path.join(self.room, name)

    def write(self, name, data):
        os.makedirs(os.path.dirname(self.path(name)), exist_ok=True)
        with open(self.path(name), 'wb') as file:
            file.write(data.encode() if isinstance(data, str) else data)
        return self.path(name)

    def read(self, name):
        with open(self.path(name), 'rb') as file:
            return file.read()

    def program(self, name, text):
        path = self.write(name, text)
        os.chmod(path, stat.S_IRWXU)
        return path

    def run_recipe(self, name, *words, **more):
        """A recipe's status, and what it says on both streams."""
        environment = environment_of(self.room, **{'DVIPBM': self.draws, 'ASKED': self.path('asked'), **more})
        path = f'{TOP}/{name}' if '/' in name else f'{RECIPES}/{name}'
        ran = subprocess.run([path, *words], cwd=self.room, env=environment, stdin=subprocess.DEVNULL, capture_output=True, text=True, timeout=600)
        return ran.returncode, ran.stdout, ran.stderr

    def refused(self, status, line, name, *words, **more):
        """Checks that a recipe ends so, with this line and no traceback, and that no file is new."""
        before = sorted(os.listdir(self.room))
        found, _, said = self.run_recipe(name, *words, **more)
        self.assertEqual((found, line in said, 'Traceback' in said), (status, True, False), f'{name} {words}: {found}\n{said}')
        made = set(os.listdir(self.room)) - {'asked', 'asked.document', 'fonts', 'home', *before}
        self.assertEqual({file for file in made if not file.endswith(('.log', '.aux'))}, set(), f'{name} {words}')


class Documents(Room):
    def test_what_is_no_document(self):
        self.write('a.pdf', '%PDF-1.5\n')
        self.write('a.ps', '%!PS\n')
        self.write('a.dvi', '%PDF-1.5\n')
        self.write('text.dvi', 'Some text\n')
        self.write('x.dvi', b'\xf7\x07' + bytes(40))
        cases = [('absent.tex', 66, 'absent.tex: there is no such file'), ('.', 66, '.: this is a folder'),
                 ('empty.dvi', 65, 'empty.dvi: the file is empty'), ('a.pdf', 65, 'a.pdf: a PDF file'), ('a.ps', 65, 'a.ps: a PostScript file'),
                 ('a.dvi', 2, 'a.dvi: a PDF file, not a DVI file; run tex or latex first'),
                 ('text.dvi', 2, 'text.dvi: not a DVI file; run tex or latex first'), ('x.dvi', 2, 'x.dvi: an XDV file, as XeTeX makes it')]
        for name, status, line in cases:
            self.write('pages.pbm', OLD)
            self.refused(status, line, 'draw', name, 'pages.pbm')
            self.assertEqual(self.read('pages.pbm'), OLD, name)
        if shutil.which('pamsplit') and shutil.which('pnmtopng'):
            for name, status, line in cases:
                self.refused(status, line, 'to-png', name, 'page')

    def test_options_that_are_none(self):
        for words, line in ((['--res', '4801'], '--res 4801: dvipbm takes 1 to 4800 dots to the inch'), (['--res', '0'], '--res 0'),
                            (['--res', 'fine'], '--res fine: not a whole number'), (['--res'], '--res: it needs a value'),
                            (['--sample', '3'], '--sample: there is no such option'), (['a4'], 'a4: not an option'),
                            (['--paper', 'a9'], 'a9: no sheet of that name'), (['--paper=a4', '--width=9'], 'no --width or --height with it'),
                            (['--paper', 'a3', '--res', '4800'], 'dvipbm draws at most 20000 a side')):
            self.refused(64, f'draw: {line}' if line[0] != 'n' and line[:6] != 'dvipbm' else line, 'draw', 'blank.dvi', 'pages.pbm', *words)

    def test_places_that_take_no_file(self):
        os.mkdir(self.path('folder'))
        self.write('file', 'x')
        for place, line in (('none/pages.pbm', 'none: there is no such folder'), ('folder', 'folder: this is a folder'),
                            ('file/pages.pbm', 'file: there is no such folder'), ('/dev/null', '/dev/null: not a file that can be replaced')):
            self.refused(73, f'draw: {line}', 'draw', 'blank.dvi', place)

    def test_a_run_that_fails_leaves_the_old_pages(self):
        self.write('pages.pbm', OLD)
        self.refused(3, 'dvipbm: page 2 at 70: stack empty', 'draw', 'blank.dvi', 'pages.pbm', DVIPBM=self.fails)
        self.assertEqual(self.read('pages.pbm'), OLD)
        silent = self.program('silent', '#!/bin/sh\nexit 10\n')
        self.refused(10, 'draw: blank.dvi: dvipbm ended with 10', 'draw', 'blank.dvi', 'pages.pbm', DVIPBM=silent)
        killed = self.program('killed', '#!/bin/sh\nkill -9 $$\n')
        self.refused(137, 'draw: blank.dvi: dvipbm ended with 137', 'draw', 'blank.dvi', 'new.pbm', DVIPBM=killed)

    def test_missing_fonts_are_said_and_the_program_decides(self):
        self.write('odd.dvi', document(b'\xabA', definition(0, name=b'nosuchfont')))
        lacks = self.program('lacks', '#!/bin/sh\necho "dvipbm: page 1 at 78: font nosuchfont 1 1: missing tfm" >&2\nexit 4\n')
        self.refused(4, 'missing: nosuchfont.tfm: ', 'draw', 'odd.dvi', 'pages.pbm', DVIPBM=lacks)

    @needs('tex')
    def test_a_fault_of_tex_is_shown_with_its_log(self):
        self.write('bad.tex', 'Text \\nothing more.\\bye\n')
        self.write('pages.pbm', OLD)
        found, _, said = self.run_recipe('draw', 'bad.tex', 'pages.pbm')
        self.assertEqual((found, said), (65, 'draw: tex finds faults in bad.tex; its log is ./bad.log\n! Undefined control sequence.\n'
                                         'l.1 Text \\nothing\n'))
        self.assertEqual(self.read('pages.pbm'), OLD)

    @needs('latex')
    def test_a_fault_of_latex_is_shown_with_its_log(self):
        self.write('bad.tex', '\\documentclass{article}\\usepackage{nosuchpackage}\\begin{document}x\\end{document}\n')
        os.mkdir(self.path('made'))
        self.refused(65, '! LaTeX Error: File `nosuchpackage.sty\' not found.', 'draw', 'bad.tex', 'made/pages.pbm')
        self.refused(65, 'draw: latex finds faults in bad.tex; its log is made/bad.log', 'draw', 'bad.tex', 'made/pages.pbm')

    @needs('tex', 'latex')
    def test_a_document_without_pages_or_with_pdf(self):
        self.write('none.tex', '\\bye\n')
        self.write('none.dvi', document([b'']))
        self.refused(65, 'none.tex: tex made no DVI file; its log is ./none.log', 'draw', 'none.tex', 'pages.pbm')
        self.write('pdf.tex', '\\documentclass{article}\\pdfoutput=1 \\begin{document}x\\end{document}\n')
        self.write('pdf.dvi', document([b'']))
        self.write('pdf.pdf', '')
        self.refused(65, 'pdf.tex: latex made no DVI file; its log is ./pdf.log', 'draw', 'pdf.tex', 'pages.pbm')


class Bitmaps(Room):
    """What to-pdf, to-ps and to-raster say of a file that isn't drawn pages."""

    @needs('pamsplit', 'pnmtops', 'gs')
    def test_what_is_no_bitmap(self):
        self.write('text.pbm', 'P1\n1 1\n0\n')
        self.write('empty.pbm', '')
        self.write('cut.pbm', PAGE + PAGE[:-1])
        self.write('odd.pbm', b'P4\n100 50\n' + bytes(13 * 50))
        for recipe in ('to-pdf', 'to-ps', 'to-raster'):
            for name, status, line in (('absent.pbm', 66, 'there is no such file'), ('empty.pbm', 65, 'the file is empty'),
                                       ('text.pbm', 65, 'not a PBM file as dvipbm writes it'), ('cut.pbm', 65, 'not a whole PBM file'),
                                       ('odd.pbm', 64, 'pages of 100 by 50 dots are no sheet that has a name')):
                self.write('made', OLD)
                self.refused(status, f'{recipe}: {name}: {line}', recipe, name, 'made')
                self.assertEqual(self.read('made'), OLD, f'{recipe} {name}')
            self.refused(73, f'{recipe}: none: there is no such folder', recipe, 'odd.pbm', 'none/made', '300')
            self.refused(64, f'{recipe}: 0: no number of dots to the inch', recipe, 'odd.pbm', 'new', '0')

    @needs('pamsplit', 'pnmtops', 'gs')
    def test_a_device_that_fails_is_heard(self):
        self.write('page.pbm', PAGE)
        self.write('made', OLD)
        tools = os.path.dirname(self.program('tools/gs', '#!/bin/sh\necho nothing is right\nexit 1\n'))
        for recipe in ('to-pdf', 'to-ps', 'to-raster'):
            self.refused(70, 'nothing is right\n' + f'{recipe}: page.pbm: gs failed', recipe, 'page.pbm', 'made', PATH=f'{tools}:{os.environ["PATH"]}')
            self.assertEqual(self.read('made'), OLD)


class Pages(Room):
    @needs('pamsplit', 'pnmtopng')
    def test_pages_of_an_older_document_are_removed(self):
        for name in ('page-1.png', 'page-2.png', 'page-3.png', 'page-12.png', 'page-03.png', 'page-x.png', 'other-3.png'):
            self.write(name, OLD)
        self.assertEqual(self.run_recipe('to-png', 'blank.dvi', 'page')[0], 0)
        found = sorted(name for name in os.listdir(self.room) if name.endswith('.png'))
        self.assertEqual(found, ['other-3.png', 'page-03.png', 'page-1.png', 'page-2.png', 'page-x.png'])
        self.assertEqual([self.read(name)[:4] == b'\x89PNG' for name in found], [False, False, True, True, False])

    @needs('pamsplit', 'pnmtopng')
    def test_a_picture_that_fails_leaves_the_old_ones(self):
        self.write('page-1.png', OLD)
        tools = os.path.dirname(self.program('tools/pnmtopng', '#!/bin/sh\nexit 1\n'))
        found, _, said = self.run_recipe('to-png', 'blank.dvi', 'page', PATH=f'{tools}:{os.environ["PATH"]}')
        self.assertEqual((found, said.split('\n')[-2]), (70, 'to-png: page.pbm: pnmtopng failed at page 1'))
        self.assertEqual(self.read('page-1.png'), OLD)
        self.assertFalse(os.path.exists(self.path('page-2.png')))

    @needs('pamsplit', 'pnmtopng')
    def test_what_pages_lack_is_shown(self):
        """A program in the place of dvipbm draws a page and says what it lacks; the option is handed on."""
        line = 'dvipbm: page 1 at 87: tolerated font nosuchfont 786432 786432: missing tfm'
        lacks = self.program('lacks', f'#!/bin/sh\necho "$*" >>"$ASKED"\nprintf "P4\\n8 1\\nx"\necho "{line}" >&2\n')
        self.write('odd.dvi', document(b'\xabA', definition(0, name=b'nosuchfont')))
        for recipe, made in (('to-png', 'page-1.png'), ('draw', 'page')):
            self.write('asked', '')
            status, _, said = self.run_recipe(recipe, 'odd.dvi', 'page', '--tolerant', '--workers', '2', DVIPBM=lacks)
            self.assertEqual((status, said.splitlines().count(line), self.read('asked').split()), (0, 1, [b'--tolerant', b'--workers', b'2']), said)
            self.assertTrue(os.path.exists(self.path(made)))

    @needs('latex')
    def test_latex_runs_until_references_settle(self):
        """A document without references once, one with a list of contents as often as its pages' numbers change, and one that never
        settles four times."""
        log = self.path('runs')
        tools = os.path.dirname(self.program('tools/latex', f'#!/bin/sh\necho run >>{log}\nexec {shutil.which("latex")} "$@"\n'))
        head, tail = '\\documentclass{article}\\begin{document}', '\\end{document}\n'
        cases = {'once': ('Text.', 1, False), 'label': ('Page \\pageref{a}.\\newpage\\label{a}Text.', 2, False),
                 'list': ('\\tableofcontents\\newpage\\section{One}\\label{a}On page \\pageref{a}.', 2, False),
                 'moving': ('\\makeatletter\\ifdefined\\turn\\else\\gdef\\turn{0}\\fi\\count9=\\turn\\advance\\count9 by 1 '
                            '\\write\\@auxout{\\gdef\\string\\turn{\\the\\count9}}Text.', 4, True)}
        for name, (body, wanted, is_told) in cases.items():
            self.write(f'{name}.tex', head + body + tail)
            self.write('runs', '')
            status, _, said = self.run_recipe('draw', f'{name}.tex', f'{name}.pbm', PATH=f'{tools}:{os.environ["PATH"]}')
            self.assertEqual(status, 0, said)
            self.assertEqual((self.read('runs').count(b'run'), "references haven't settled after four runs of latex" in said), (wanted, is_told), name)

    def test_draw_takes_the_folder_of_fonts_that_is_named(self):
        self.write('font.dvi', document(b'\xabT', definition(0)))
        shutil.copytree(SAMPLE, self.path('mine'))
        status, _, said = self.run_recipe('draw', 'font.dvi', 'pages.pbm', DVIPBM_FONTS=self.path('mine'))
        self.assertEqual((status, f'{self.path("mine")}: 0 files new, 2 there before, 0 missing' in said), (0, True), said)
        self.assertFalse(os.path.exists(self.path('fonts')))


class Many(Room):
    def lay(self, *names):
        for name in names:
            self.write(f'{name}.dvi', document([b'']))
            self.write(f'{name}.pbm', OLD)
        return [f'{name}.dvi' for name in names]

    @needs('parallel')
    def test_no_old_pages_beside_a_document_that_fails(self):
        names = self.lay('a', 'b c', "d'e")
        self.write('cut.dvi', b'\xf7\x02')
        self.write('cut.pbm', OLD)
        chooses = self.program('chooses', '#!/bin/sh\n[ "$(wc -c)" -gt 9 ] && printf "P4\\n8 1\\nx" && exit 0\nprintf P4\nexit 2\n')
        status, _, said = self.run_recipe('many', 'fonts', *names, 'cut.dvi', 'absent.dvi', DVIPBM=chooses)
        self.assertEqual(status, 1, said)
        self.assertIn('cut.dvi\tno pages: dvipbm ended with 2\n', said)
        self.assertIn('absent.dvi: No such file or directory\n', said)
        self.assertRegex(said, r'(?m)^absent\.dvi\t.*absent\.dvi')
        self.assertEqual({name: self.read(name.replace('.dvi', '.pbm')) for name in names}, {name: b'P4\n8 1\nx' for name in names})
        self.assertEqual([name for name in os.listdir(self.room) if name.startswith(('cut.', 'absent')) and name != 'cut.dvi' or name.endswith('.part')], [])

    @needs('parallel')
    def test_options(self):
        names = self.lay('a')
        for words, asked in ((['--res', '600', '--paper', 'a4'], '--res 600 --width 4961 --height 7016'), (['--workers=2', '--trace'], '--workers 2 --trace'),
                             (['--tolerant', '--res=600'], '--tolerant --res 600'),
                             (['--paper=a5-landscape'], '--width 2480 --height 1748'), ([], '')):
            self.write('asked', '')
            status, _, said = self.run_recipe('many', *words, 'fonts', *names)
            self.assertEqual((status, sorted(self.read('asked').decode().split())), (0, sorted(asked.split())), said)
        self.refused(64, 'many: --res 9999: dvipbm takes 1 to 4800 dots to the inch', 'many', '--res', '9999', 'fonts', *names)
        self.refused(64, "many: --x;y: this can't be in an option", 'many', '--x;y', 'b', 'fonts', *names)
        self.refused(64, 'usage: docs/recipes/many [OPTION ..] FONTS DOCUMENT.dvi ..', 'many', '--trace', 'fonts')

    @needs('parallel')
    def test_each_document_has_the_sheet_that_it_asks_for(self):
        self.write('a.dvi', document(b'\xef\x15papersize=105mm,148mm'))
        self.write('b.dvi', document(b''))
        self.assertEqual(self.run_recipe('many', '--workers', '3', 'fonts', 'a.dvi', 'b.dvi')[0], 0)
        self.assertEqual(sorted(line.split() for line in self.read('asked').decode().splitlines()),
                         sorted([['--workers', '3', '--width', '1240', '--height', '1748'], ['--workers', '3']]))

    def hosts(self, shell):
        """A program in the place of ssh, whose machines are folders here and have this login shell."""
        self.program('ssh', '#!/bin/sh\nwhile [ "${1#-}" != "$1" ]; do case $1 in -l|-p|-o) shift 2;; *) shift;; esac; done\n'
                     f'HOME="$MACHINES/$1" SHELL={shell}; export HOME SHELL; shift; if [ "$1" = -- ]; then shift; fi\n'
                     'mkdir -p "$HOME"; cd "$HOME"; exec sh -c "$*"\n')
        return {'MACHINES': self.path('machines'), 'PARALLEL_SSH': self.path('ssh')}

    @needs('parallel', 'rsync')
    def test_machines_whose_login_shell_does_nothing(self):
        names = self.lay('a', 'b')
        status, _, said = self.run_recipe('many-hosts', 'one,two', 'fonts', *names, REMOTE_DVIPBM=self.draws, **self.hosts('/bin/false'))
        self.assertEqual((status, [self.read(name) for name in ('a.pbm', 'b.pbm')]), (0, [b'P4\n8 1\n\0P4\n8 2\n\0\0'] * 2), said)

    @needs('parallel', 'rsync')
    def test_a_command_that_fails_elsewhere_is_heard(self):
        names = self.lay('a', 'b')
        silent = self.program('silent', '#!/bin/sh\nexit 9\n')
        for program, status in ((silent, 9), (self.path('not there'), 127)):
            self.lay('a', 'b')
            found, _, said = self.run_recipe('many-hosts', 'one,two', 'fonts', *names, REMOTE_DVIPBM=program, **self.hosts('/bin/sh'))
            for name in names:
                self.assertIn(f'{name}\tno pages: dvipbm ended with {status}\n', said)
                self.assertIn(f'{name}: no pages came back\n', said)
            self.assertEqual((found, [name for name in ('a.pbm', 'b.pbm') if os.path.exists(self.path(name))]), (1, []))

    @needs('parallel', 'rsync')
    def test_a_machine_that_is_not_reached_is_heard(self):
        names = self.lay('a')
        ssh = self.program('ssh', '#!/bin/sh\necho no route >&2\nexit 255\n')
        found, _, said = self.run_recipe('many-hosts', 'one', 'fonts', *names, PARALLEL_SSH=ssh)
        self.assertEqual((found, 'a.dvi: no pages came back\n' in said, 'no route' in said), (1, True, True), said)


def programs():
    """Every script of the repository, by its path from the top."""
    found = []
    for folder in ('docs/recipes', 'docs/sample', 'tools', 'bench'):
        found += [path for path in sorted(glob.glob(f'{folder}/*', root_dir=TOP)) if os.path.isfile(f'{TOP}/{path}') and os.access(f'{TOP}/{path}', os.X_OK)]
    return found


class Help(Room):
    def test_every_script_has_help(self):
        self.assertGreater(len(programs()), 15)
        for path in programs():
            for word in ('-h', '--help'):
                status, out, said = self.run_recipe(path, word, DVIPBM='/nowhere/dvipbm')
                self.assertEqual((status, said), (0, ''), f'{path} {word}')
                self.assertRegex(out, rf'\A.*\b{re.escape(os.path.basename(path))}\b', f'{path} {word}')

    def test_other_arguments_are_refused_in_a_line(self):
        for path in [path for path in programs() if path.startswith('docs/recipes/')] + ['tools/collect-fonts']:
            if path.endswith(('cups-filter', 'preview')):
                continue
            status, _, said = self.run_recipe(path)
            self.assertEqual((status, 'usage' in said, 'Traceback' in said), (64, True, False), f'{path}: {status} {said}')

    def test_the_statuses_of_a_table(self):
        """Every status by which a script here ends stands in the table of docs/USING.md."""
        with open(f'{TOP}/docs/USING.md', encoding='utf-8') as file:
            table = file.read().partition('## Exit statuses')[2].partition('\n## ')[0]
        listed = set()
        for first, last in re.findall(r'^\| (\d+)(?: to (\d+))? \|', table, re.M):
            listed |= set(range(int(first), int(last or first) + 1))
        found = set()
        for path in [*programs(), 'docs/recipes/tools.sh']:
            if path.startswith('docs/recipes/') or path == 'tools/collect-fonts':
                with open(f'{TOP}/{path}', encoding='utf-8') as file:
                    text = file.read()
                found |= {int(number) for number in re.findall(r'\b(?:exit|fail|stop) (\d+)\b|\b(?:fail|Refused)\((\d+),|\breturn (\d\d)\b', text)
                          for number in number if number}
        self.assertTrue({64, 65, 66, 69, 70, 73} <= found, found)
        self.assertEqual(found - listed, set())


if __name__ == '__main__':
    unittest.main()
