"""The recipes to-tiff and manifest: what they make, and what they say where they make nothing; how all three new recipes begin."""
import hashlib, os, shutil, stat, subprocess, sys, tempfile, unittest

from common import PROGRAM, RECIPES, SAMPLE, needs, needs_program, run

ROWS = {b'13 3': bytes.fromhex('a4b8ffc81240'), b'16 2': bytes.fromhex('0ff08001')}
PAGES = b''.join(b'P4\n' + sides + b'\n' + rows for sides, rows in ROWS.items())
# In the place of dvipbm: writes the bytes that the document has after a word on its status and a line, for "7 a line;pages".
STAND_IN = r'''#!{python}
import os, sys
head, _, pages = sys.stdin.buffer.read().partition(b';')
status, line = head.decode().split(' ', 1)
print(line, *sys.argv[1:], os.environ['DVIPBM_FONTS'], file=sys.stderr)
sys.stdout.buffer.write(pages)
sys.exit(int(status))
'''


def sum_of(data):
    return hashlib.sha256(data).hexdigest()


class Rooms(unittest.TestCase):
    def setUp(self):
        place = tempfile.TemporaryDirectory()
        self.addCleanup(place.cleanup)
        self.room = place.name
        self.write('dvipbm', STAND_IN.replace('{python}', sys.executable).encode(), 0o755)

    def path(self, name):
        return os.path.join(self.room, name)

    def write(self, name, data, mode=0o644):
        with open(self.path(name), 'wb') as file:
            file.write(data)
        os.chmod(self.path(name), mode)

    def read(self, name):
        with open(self.path(name), 'rb') as file:
            return file.read()

    def called(self, recipe, *words, input=b'', **more):
        """The status of a recipe, and what it said on both streams."""
        environment = {**os.environ, 'DVIPBM': self.path('dvipbm'), **more}
        ran = subprocess.run([f'{RECIPES}/{recipe}', *words], cwd=self.room, env=environment, input=input, capture_output=True)
        return ran.returncode, ran.stdout, ran.stderr.decode('utf-8', 'replace')

    def files(self):
        return sorted(os.listdir(self.room))


class Help(Rooms):
    def test_help_is_on_standard_output(self):
        for recipe in ('to-tiff', 'manifest', 'cups-filter'):
            for word in ('-h', '--help'):
                status, said, errors = self.called(recipe, word, DVIPBM='/nowhere/dvipbm')
                self.assertEqual((status, said.startswith(f'{recipe} '.encode()), errors), (0, True, ''))

    def test_other_arguments(self):
        for recipe, status, line in (('to-tiff', 64, 'usage: '), ('manifest', 64, 'manifest: usage: '), ('cups-filter', 1, "ERROR: dvipbm's filter: usage: ")):
            for words in ([], ['a'], ['1', '2', '3', '4', '5', '6', '7']):
                if recipe != 'manifest' or len(words) < 2:
                    found = self.called(recipe, *words)
                    self.assertEqual((found[:2], found[2].startswith(line), found[2].count('\n')), ((status, b''), True, 1), found)

    def test_a_program_that_is_absent(self):
        why = 'there is no /nowhere/dvipbm: run make in the repository, or name the program by DVIPBM\n'
        self.assertEqual(self.called('to-tiff', 'a.pbm', 'a.tiff', DVIPBM='/nowhere/dvipbm'), (69, b'', f'to-tiff: {why}'))
        self.assertEqual(self.called('manifest', 'a', 'fonts', 'a.dvi', DVIPBM='/nowhere/dvipbm'), (69, b'', f'manifest: {why}'))
        self.assertEqual(self.called('cups-filter', '1', 'me', 'a', '1', '', 'a.dvi', DVIPBM='/nowhere/dvipbm'),
                         (1, b'', "ERROR: dvipbm's filter: /nowhere/dvipbm isn't installed\n"))


@needs('pamtotiff')
class Tiff(Rooms):
    @needs('tifftopnm')
    def test_each_image_has_the_dots_of_its_page(self):
        self.write('pages.pbm', PAGES)
        self.assertEqual(self.called('to-tiff', 'pages.pbm', 'pages.tiff', '300'), (0, b'', ''))
        ran = subprocess.run(['tifftopnm', '-byrow', self.path('pages.tiff')], capture_output=True, check=True)
        self.assertEqual(ran.stdout, PAGES)

    def test_how_it_is_packed_and_at_which_resolution(self):
        """Field by field of the first image: one bit, group 4, white is 0, and dots to the inch."""
        self.write('pages.pbm', PAGES)
        self.assertEqual(self.called('to-tiff', 'pages.pbm', 'pages.tiff', '600')[0], 0)
        wanted = {256: 13, 257: 3, 258: 1, 259: 4, 262: 0, 282: (600, 1), 283: (600, 1), 296: 2}
        found = fields_of(self.read('pages.tiff'))
        self.assertEqual(len(found), 2)
        self.assertEqual({tag: found[0].get(tag, 1) for tag in wanted}, wanted)

    def test_the_resolution_is_that_of_the_sheet(self):
        self.write('a4.pbm', b'P4\n827 1169\n' + bytes(104 * 1169))
        self.assertEqual(self.called('to-tiff', 'a4.pbm', 'a4.tiff'), (0, b'', ''))
        self.assertEqual({tag: fields_of(self.read('a4.tiff'))[0][tag] for tag in (282, 283, 296)}, {282: (100, 1), 283: (100, 1), 296: 2})
        self.write('odd.pbm', PAGES)
        self.assertEqual(self.called('to-tiff', 'odd.pbm', 'odd.tiff'), (
            64, b'', 'to-tiff: odd.pbm: pages of 13 by 3 dots are no sheet that has a name; give their dots to the inch after odd.tiff\n'))

    def test_what_is_no_page_is_refused_and_an_older_file_stays(self):
        for name, data, line in (
            ('cut', PAGES[:-1], 'no TIFF file is made of it: .+'),
            ('mixed', PAGES + b'P5\n3 2\n255\nabcdef', 'no TIFF file is made of it: .+'),
            ('head', b'P4\n13', 'no TIFF file is made of it: .+'),
            ('grey', b'P5\n3 2\n255\nabcdef', 'not a PBM file as dvipbm writes it'),
            ('text', b'\\bye\n', 'not a PBM file as dvipbm writes it'),
            ('pdf', b'%PDF-1.5\n', 'not a PBM file as dvipbm writes it'),
        ):
            self.write(f'{name}.pbm', data)
            self.write('old.tiff', b'old')
            before = self.files()
            status, said, errors = self.called('to-tiff', f'{name}.pbm', 'old.tiff', '300')
            self.assertEqual((status, said, self.read('old.tiff'), self.files()), (65, b'', b'old', before), name)
            self.assertRegex(errors, rf'\Ato-tiff: {name}\.pbm: {line}\n\Z')

    def test_what_cannot_be_read_or_written(self):
        self.write('pages.pbm', PAGES)
        self.write('empty.pbm', b'')
        os.mkdir(self.path('folder'))
        before = self.files()
        for words, status, line in (
            (['empty.pbm', 'a.tiff', '300'], 65, 'empty.pbm: the file is empty'),
            (['none.pbm', 'a.tiff', '300'], 66, 'none.pbm: there is no such file'),
            (['folder', 'a.tiff', '300'], 66, 'folder: this is a folder'),
            (['pages.pbm', 'none/a.tiff', '300'], 73, 'none: there is no such folder'),
            (['pages.pbm', 'folder', '300'], 73, 'folder: this is a folder'),
            (['pages.pbm', 'a.tiff', 'x'], 64, 'x: no number of dots to the inch'),
        ):
            self.assertEqual(self.called('to-tiff', *words), (status, b'', f'to-tiff: {line}\n'))
        self.assertEqual((self.files(), os.listdir(self.path('folder'))), (before, []))

    def test_a_file_has_the_rights_of_a_new_one(self):
        self.write('pages.pbm', PAGES)
        ran = subprocess.run(['sh', '-c', f'umask 027; exec "{RECIPES}/to-tiff" pages.pbm a.tiff 300'], cwd=self.room, env={**os.environ, 'DVIPBM': self.path('dvipbm')})
        self.assertEqual((ran.returncode, stat.S_IMODE(os.stat(self.path('a.tiff')).st_mode)), (0, 0o640))

    def test_a_tool_that_is_absent_is_named(self):
        os.mkdir(self.path('bare'))
        for tool in ('sh', 'dirname', 'basename', 'env', 'sed'):
            os.symlink(shutil.which(tool), self.path(f'bare/{tool}'))
        self.assertEqual(self.called('to-tiff', 'a.pbm', 'a.tiff', PATH=self.path('bare')),
                         (69, b'', "to-tiff: pamtotiff isn't installed; on Debian: apt-get install netpbm\n"))


def fields_of(data):
    """The directories of a TIFF file, each a table from tags to numbers, or to pairs where the field is a fraction."""
    order = {b'II': 'little', b'MM': 'big'}[data[:2]]

    def number(at, size):
        return int.from_bytes(data[at:at + size], order)

    found, at = [], number(4, 4)
    while at:
        found.append({})
        count = number(at, 2)
        for place in range(at + 2, at + 2 + 12 * count, 12):
            kind = number(place + 2, 2)
            if kind == 5:
                found[-1][number(place, 2)] = (number(number(place + 8, 4), 4), number(number(place + 8, 4) + 4, 4))
            elif kind in (3, 4):
                found[-1][number(place, 2)] = number(place + 8, 2 if kind == 3 else 4)
        at = number(at + 2 + 12 * count, 4)
    return found


class Manifest(Rooms):
    HEAD = '#status\tpages\tdocument\tof its pages\tbeside\tname\tline\n'

    def documents(self):
        """Documents for the stand-in, each with its line."""
        made = {
            'b.dvi': (0, b'0 all well;' + PAGES, 2, PAGES, 'same', 'all well'),
            'bad.dvi': (3, b'3 a fault;' + PAGES[:14] + b'P4\n8 1', 1, PAGES[:14] + b'P4\n8 1', 'none', 'a fault'),
            'c.dvi': (0, b'0 well;' + PAGES[14:], 1, PAGES[14:], 'other', 'well'),
        }
        for name, (_, data, *_rest) in made.items():
            self.write(name, data)
        self.write('b.pbm', PAGES)
        self.write('c.pbm', PAGES)
        return {name: f'{status}\t{pages}\t{sum_of(data)}\t{sum_of(written)}\t{beside}\t{name}\t{line} '
                for name, (status, data, pages, written, beside, line) in made.items()}

    def test_a_line_for_each_document(self):
        self.assertEqual(PAGES[:14] + b'P4\n16 2\n' + ROWS[b'16 2'], PAGES)
        lines = self.documents()
        none = '66\t0\t-\t-\tnone\tnone.dvi\tNo such file or directory\n'
        self.assertEqual(self.called('manifest', '--res', '100', '--width=9', 'list', 'fonts', 'c.dvi', 'bad.dvi', 'none.dvi', 'b.dvi', 'b.dvi'),
                         (1, b'', '4 documents, 2 with another status than 0\n'))
        self.assertEqual(self.read('list').decode(), self.HEAD + '#options\t--res\t100\t--width=9\n'
                         + ''.join(f'{line}--res 100 --width=9 fonts\n' for line in lines.values()) + none)

    def test_names_come_from_standard_input(self):
        lines = self.documents()
        self.assertEqual(self.called('manifest', 'list', 'fonts', input=b'c.dvi\0b.dvi\0'), (0, b'', '2 documents, 0 with another status than 0\n'))
        self.assertEqual(self.read('list').decode(), f'{self.HEAD}#options\n{lines["b.dvi"]}fonts\n{lines["c.dvi"]}fonts\n')

    def test_options_without_a_value(self):
        lines = self.documents()
        self.assertEqual(self.called('manifest', '--tolerant', '--res', '7', '--trace', 'list', 'fonts', 'b.dvi')[0], 0)
        self.assertEqual(self.read('list').decode(), f'{self.HEAD}#options\t--tolerant\t--res\t7\t--trace\n{lines["b.dvi"]}--tolerant --res 7 --trace fonts\n')
        self.assertEqual(self.called('manifest', '--check', 'list', 'fonts'), (0, b'', ''))

    def test_a_name_with_tabs_and_bytes_that_are_no_text(self):
        name = b'a\tb\n\\\xff.dvi'
        with open(os.path.join(os.fsencode(self.room), name), 'wb') as file:
            file.write(b'0 well;')
        self.assertEqual(self.called('manifest', 'list', 'fonts', input=name)[0], 0)
        self.assertEqual(self.read('list').split(b'\t')[-2], b'a\\tb\\n\\\\\xff.dvi')
        self.assertEqual(self.called('manifest', '--check', 'list', 'fonts'), (0, b'', ''))

    def test_a_check_prints_what_differs(self):
        lines = self.documents()
        self.assertEqual(self.called('manifest', '--res=7', 'list', 'fonts', 'b.dvi', 'c.dvi')[0], 0)
        self.assertEqual(self.called('manifest', '--check', 'list', 'fonts'), (0, b'', ''))
        self.write('b.pbm', PAGES[:-1])
        self.write('c.dvi', b'9 out of memory;')
        status, said, errors = self.called('manifest', '--check', 'list', 'fonts')
        nothing = sum_of(b'')
        self.assertEqual((status, said.decode(), errors), (
            1, lines['b.dvi'].replace('same', 'other') + '--res=7 fonts\n'
            f'9\t0\t{sum_of(b"9 out of memory;")}\t{nothing}\tother\tc.dvi\tout of memory --res=7 fonts\n', ''))

    def test_what_is_no_manifest(self):
        self.write('text', b'a\nb\n')
        for words, status, line in (
            (['--check', 'none', 'fonts'], 66, 'none: No such file or directory'),
            (['--check', 'text', 'fonts'], 65, 'text: this is no manifest'),
            (['none/list', 'fonts', 'b.dvi'], 73, 'none/list: No such file or directory'),
        ):
            self.assertEqual(self.called('manifest', *words), (status, b'', f'manifest: {line}\n'))

    def test_a_manifest_is_written_whole_or_not_at_all(self):
        self.documents()
        os.mkdir(self.path('list'))
        before = self.files()
        self.assertEqual(self.called('manifest', 'list', 'fonts', 'b.dvi'), (73, b'', 'manifest: list: Is a directory\n'))
        self.assertEqual(self.files(), before)

    @needs_program
    def test_with_the_program_itself(self):
        shutil.copy(f'{SAMPLE}/sample.dvi', self.path('sample.dvi'))
        data = self.read('sample.dvi')
        self.write('bad.dvi', data[:99])
        status, page, _ = run(data)
        self.assertEqual(self.called('manifest', 'list', SAMPLE, 'sample.dvi', 'bad.dvi', DVIPBM=PROGRAM)[0], 1)
        self.assertEqual(self.read('list').decode(), f'{self.HEAD}#options\n'
                         f'2\t0\t{sum_of(data[:99])}\t{sum_of(b"")}\tnone\tbad.dvi\t{run(data[:99])[2]}'
                         f'{status}\t1\t{sum_of(data)}\t{sum_of(page)}\tnone\tsample.dvi\t-\n')


if __name__ == '__main__':
    unittest.main()
