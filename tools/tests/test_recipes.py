"""The recipes of docs/USING.md, each where its tools are installed: what they make has the dots of the pages that the program drew."""
import os, shutil, struct, subprocess, tempfile, unittest

from common import PROGRAM, RECIPES, TOP, definition, document, environment_of, needs, needs_program

WIDE, HIGH, ROW = 2550, 3300, 319
HEAD = b'P4\n2550 3300\n'


def bitmaps(data):
    """The bitmaps of a PBM file, as (width, height, rows); comments in the heads are passed over."""
    found = []
    while data:
        fields, at = [], 0
        while len(fields) < 3:
            line, at = data[at:data.index(b'\n', at)], data.index(b'\n', at) + 1
            fields += [] if line.startswith(b'#') else line.split()
        wide, high = int(fields[1]), int(fields[2])
        size = (wide + 7) // 8 * high
        found.append((wide, high, data[at:at + size]))
        data = data[at + size:]
    return found


def read(path):
    with open(path, 'rb') as file:
        return file.read()


@needs_program
class Recipes(unittest.TestCase):
    @classmethod
    def setUpClass(cls):
        cls.room = tempfile.mkdtemp()
        cls.addClassCleanup(shutil.rmtree, cls.room)
        if shutil.which('tex') and shutil.which('mktexpk') and shutil.which('mf'):
            cls.recipe('draw', f'{RECIPES}/example.tex', 'pages.pbm')
        else:
            shutil.copytree(f'{TOP}/docs/sample', f'{cls.room}/fonts')
            shutil.copy(f'{TOP}/docs/sample/sample.dvi', f'{cls.room}/example.dvi')
            cls.recipe('draw', 'example.dvi', 'pages.pbm')
        cls.pages = bitmaps(read(f'{cls.room}/pages.pbm'))

    @classmethod
    def recipe(cls, name, *words, status=0, **more):
        ran = subprocess.run([f'{RECIPES}/{name}', *words], cwd=cls.room, env=environment_of(cls.room, **{'DVIPBM': PROGRAM, **more}),
                             stdin=subprocess.DEVNULL, capture_output=True, text=True, timeout=600)
        if ran.returncode != status:
            raise AssertionError(f'{name} ended with {ran.returncode} and not {status}:\n{ran.stdout}{ran.stderr}')
        return ran.stderr

    def path(self, name):
        return os.path.join(self.room, name)

    def same(self, found):
        """Compares bitmaps with the pages: sizes and dots, page by page."""
        self.assertEqual([it[:2] for it in found], [it[:2] for it in self.pages])
        self.assertEqual([number for number, (one, other) in enumerate(zip(found, self.pages), 1) if one != other], [])

    def test_draw(self):
        self.assertEqual({it[:2] for it in self.pages}, {(WIDE, HIGH)})
        self.assertTrue(all(any(it[2]) for it in self.pages))

    @needs('latex', 'mktexpk', 'mf')
    def test_draw_latex(self):
        with open(self.path('small.tex'), 'w') as file:
            file.write('\\documentclass{article}\\begin{document}\\section{One} Text, $e^{i\\pi}=-1$.\\end{document}\n')
        self.recipe('draw', 'small.tex', 'small.pbm')
        self.assertEqual([it[:2] for it in bitmaps(read(self.path('small.pbm')))], [(WIDE, HIGH)])

    @needs('latex', 'mktexpk', 'kpsewhich')
    def test_draw_virtual_fonts(self):
        if subprocess.run(['kpsewhich', 'ptmr7t.vf', 'utmr8a.pfb'], stdout=subprocess.DEVNULL).returncode:
            self.skipTest('not installed: texlive-fonts-recommended')
        with open(self.path('times.tex'), 'w') as file:
            file.write('\\documentclass{article}\\usepackage{times}\\pagestyle{empty}\\begin{document}Fine text.\\end{document}\n')
        self.recipe('draw', 'times.tex', 'times.pbm')
        found = bitmaps(read(self.path('times.pbm')))
        self.assertEqual([it[:2] for it in found], [(WIDE, HIGH)])
        self.assertTrue(any(found[0][2]))
        self.assertTrue(os.path.exists(self.path('fonts/ptmr7t.vf')))

    @needs('pamsplit', 'pnmtopng', 'pngtopam')
    def test_to_png(self):
        self.recipe('to-png', 'example.dvi', 'screen')
        found = []
        for number in range(1, len(self.pages) + 1):
            ran = subprocess.run(['pngtopam', self.path(f'screen-{number}.png')], capture_output=True, check=True)
            found += bitmaps(ran.stdout)
        self.same(found)
        self.assertFalse(os.path.exists(self.path(f'screen-{len(self.pages) + 1}.png')))

    @needs('pamsplit', 'pnmtopng', 'pngtopam')
    def test_to_png_of_a_document_whose_font_is_missing(self):
        with open(self.path('odd.dvi'), 'wb') as file:
            file.write(document(b'\xabA', definition(0, name=b'nosuchfont')))
        line = 'page 1 at 87: {}font nosuchfont 786432 786432: missing tfm'
        self.assertIn(f'dvipbm: {line.format("")}\n', self.recipe('to-png', 'odd.dvi', 'odd', status=4))
        self.assertFalse(os.path.exists(self.path('odd-1.png')))
        self.assertIn(f'dvipbm: {line.format("tolerated ")}\n', self.recipe('to-png', 'odd.dvi', 'odd', '--tolerant'))
        ran = subprocess.run(['pngtopam', self.path('odd-1.png')], capture_output=True, check=True)
        self.assertEqual(bitmaps(ran.stdout), [(WIDE, HIGH, bytes(ROW * HIGH))])

    def shown(self, name):
        """The pages of a PostScript or PDF file, as Ghostscript shows them."""
        subprocess.run(['gs', '-q', '-dBATCH', '-dNOPAUSE', '-sDEVICE=pbmraw', '-r300', f'-sOutputFile={self.path("shown.pbm")}', self.path(name)],
                       check=True, stdin=subprocess.DEVNULL)
        return bitmaps(read(self.path('shown.pbm')))

    @needs('pamsplit', 'pnmtops', 'gs')
    def test_to_ps(self):
        self.recipe('to-ps', 'pages.pbm', 'pages.ps')
        self.same(self.shown('pages.ps'))

    @needs('pamsplit', 'pnmtops', 'gs')
    def test_to_pdf(self):
        self.recipe('to-pdf', 'pages.pbm', 'pages.pdf')
        self.assertEqual(read(self.path('pages.pdf'))[:5], b'%PDF-')
        self.same(self.shown('pages.pdf'))

    @needs('pamsplit', 'pnmtops', 'gs')
    def test_to_raster(self):
        devices = subprocess.run(['gs', '-h'], capture_output=True, text=True, stdin=subprocess.DEVNULL).stdout.split()
        if 'cups' not in devices:
            self.skipTest('this Ghostscript has no device cups')
        self.recipe('to-raster', 'pages.pbm', 'pages.ras')
        self.same(rasters(read(self.path('pages.ras'))))

    def test_draw_on_a4(self):
        """The same dots on a narrower and higher sheet."""
        self.recipe('draw', 'example.dvi', 'a4.pbm', '--width', '2480', '--height=3508')
        found, across = bitmaps(read(self.path('a4.pbm'))), 2480 // 8
        cut = [(2480, 3508, b''.join(rows[y * ROW:y * ROW + across] for y in range(HIGH))) for _, _, rows in self.pages]
        self.assertEqual([(*it[:2], it[2][:HIGH * across]) for it in found], cut)

    @needs('pamsplit', 'pnmtops', 'gs')
    def test_a4_to_pdf(self):
        self.recipe('draw', 'example.dvi', 'sheets.pbm', '--width', '2480', '--height=3508')
        self.recipe('to-pdf', 'sheets.pbm', 'sheets.pdf')
        found, wanted = self.shown('sheets.pdf'), bitmaps(read(self.path('sheets.pbm')))
        self.assertEqual([it[:2] for it in found], [(2480, 3508)] * len(wanted))
        self.assertTrue(found == wanted)

    @needs('tex', 'mktexpk', 'mf')
    def test_draw_at_600(self):
        self.recipe('draw', 'example.dvi', 'fine.pbm', '--res', '600')
        found = bitmaps(read(self.path('fine.pbm')))
        self.assertEqual([it[:2] for it in found], [(5100, 6600)] * len(self.pages))
        self.assertTrue(all(any(it[2]) for it in found))

    def copies(self, count):
        os.makedirs(self.path('many'), exist_ok=True)
        for number in range(count):
            shutil.copy(self.path('example.dvi'), self.path(f'many/{number}.dvi'))
        return [f'many/{number}.dvi' for number in range(count)]

    @needs('parallel')
    def test_many(self):
        names = self.copies(20)
        self.recipe('many', 'fonts', *names)
        pages = read(self.path('pages.pbm'))
        self.assertEqual([name for name in names if read(self.path(name.replace('.dvi', '.pbm'))) != pages], [])

    @needs('parallel')
    def test_many_with_one_that_fails(self):
        names = self.copies(2)
        with open(self.path('many/bad.dvi'), 'wb') as file:
            file.write(b'x')
        self.assertIn('many/bad.dvi\tdvipbm: document: preamble at 0', self.recipe('many', 'fonts', 'many/bad.dvi', *names, status=1))
        self.assertFalse(os.path.exists(self.path('many/bad.pbm')))
        self.assertTrue(os.path.exists(self.path('many/1.pbm')))

    @needs('parallel', 'rsync')
    def test_many_hosts(self):
        """Over two machines that are folders here, reached by a program in the place of ssh."""
        with open(self.path('ssh'), 'w') as file:
            file.write('#!/bin/sh\nwhile [ "${1#-}" != "$1" ]; do case $1 in -l|-p|-o) shift 2;; *) shift;; esac; done\n'
                       'HOME="$MACHINES/$1"; export HOME; shift; if [ "$1" = -- ]; then shift; fi; mkdir -p "$HOME"; cd "$HOME"; exec sh -c "$*"\n')
        os.chmod(self.path('ssh'), 0o755)
        names = self.copies(6)
        self.recipe('many-hosts', 'one,two', 'fonts', *names, MACHINES=self.path('machines'), PARALLEL_SSH=self.path('ssh'), REMOTE_DVIPBM=PROGRAM)
        pages = read(self.path('pages.pbm'))
        self.assertEqual([name for name in names if read(self.path(name.replace('.dvi', '.pbm'))) != pages], [])
        self.assertEqual(sorted(os.listdir(self.path('machines'))), ['one', 'two'])

    def test_a_program_that_is_absent_is_named(self):
        said = self.recipe('to-pdf', 'pages.pbm', 'x.pdf', status=69, DVIPBM='/nowhere/dvipbm')
        self.assertEqual(said, 'to-pdf: there is no /nowhere/dvipbm: run make in the repository, or name the program by DVIPBM\n')

    def test_a_tool_that_is_absent_is_named(self):
        os.makedirs(self.path('bare'), exist_ok=True)
        for tool in ('sh', 'dirname', 'basename', 'mktemp', 'env', 'rm'):
            if not os.path.lexists(self.path(f'bare/{tool}')):
                os.symlink(shutil.which(tool), self.path(f'bare/{tool}'))
        said = self.recipe('to-pdf', 'pages.pbm', 'x.pdf', status=69, PATH=self.path('bare'))
        self.assertEqual(said, "to-pdf: pamsplit isn't installed; on Debian: apt-get install netpbm\n")


def rasters(data):
    """The pages of CUPS raster, version 3: black and white, one bit a dot, each row in as many bytes as its head says."""
    order = {b'3SaR': '<', b'RaS3': '>'}[data[:4]]
    found, at = [], 4
    while at < len(data):
        head = data[at:at + 1796]
        wide, high = struct.unpack(f'{order}2I', head[372:380])
        bits, across = struct.unpack(f'{order}I', head[388:392])[0], struct.unpack(f'{order}I', head[392:396])[0]
        if bits != 1:
            raise AssertionError(f'{bits} bits a dot')
        at += 1796
        rows = b''.join(data[at + y * across:at + y * across + (wide + 7) // 8] for y in range(high))
        at += across * high
        found.append((wide, high, rows))
    return found


if __name__ == '__main__':
    unittest.main()
