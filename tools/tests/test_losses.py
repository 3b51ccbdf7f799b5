"""What draw and losses tell of pages that lose something, the sheets that documents ask for, and sheets by their names."""
import importlib.machinery, importlib.util, os, re, shutil, subprocess, sys, tempfile, unittest

from common import PROGRAM, RECIPES, SAMPLE, TOP, definition, document, environment_of, needs, needs_program, number


def loaded(path, name):
    loader = importlib.machinery.SourceFileLoader(name, path)
    module = importlib.util.module_from_spec(importlib.util.spec_from_loader(name, loader))
    loader.exec_module(module)
    return module


losses = loaded(f'{RECIPES}/losses', 'losses')


def special(text):
    return b'\xef' + bytes([len(text)]) + text


def sized(data, high, wide):
    """A document whose end says so of its greatest page."""
    at = data.rindex(b'\xf8') + 17
    return data[:at] + number(high, 4) + number(wide, 4) + data[at + 8:]


class Room(unittest.TestCase):
    def setUp(self):
        self.room = tempfile.mkdtemp()
        self.addCleanup(shutil.rmtree, self.room)

    def path(self, name):
        return os.path.join(self.room, name)

    def write(self, name, data):
        with open(self.path(name), 'wb') as file:
            file.write(data.encode() if isinstance(data, str) else data)

    def recipe(self, name, *words, **more):
        ran = subprocess.run([f'{RECIPES}/{name}', *words], cwd=self.room, capture_output=True, text=True, timeout=600, stdin=subprocess.DEVNULL,
                             env=environment_of(self.room, **{'DVIPBM': sys.executable, 'DVIPBM_FONTS': SAMPLE, **more}))
        return ran.returncode, ran.stdout, ran.stderr

    def told(self, data, *words):
        """What losses prints for a document, and the lines that it tells."""
        self.write('a.dvi', data)
        status, out, said = self.recipe('losses', *words, 'a.dvi')
        self.assertEqual(status, 0, said)
        return out.rstrip('\n'), [line.removeprefix('a.dvi: ') for line in said.splitlines()]


class Losses(Room):
    def test_kinds_of_specials(self):
        """As dvips, dvipdfmx and hyperref have them."""
        cases = {
            'colours': [b'color push rgb 1 0 0', b'color push Red', b'color cmyk 0 1 1 0', b'background gray 0.5', b'pdf:bcolor [1 0 0]',
                        b'color push gray 0.5', b'color push rgb 0 0 1'],
            'pictures': [b'PSfile="a.eps" llx=0', b'psfile=a.eps', b'" newpath stroke', b'ps: 0 0 moveto', b'ps::[begin]', b'em:graph a.pcx',
                         b'pdf:image (a.png)', b'pn 8', b'pa 0 0', b'fp', b'ar 0 0 5 5 0 1'],
            'turned or scaled parts': [b'ps: gsave currentpoint currentpoint translate 30 neg rotate neg exch neg exch translate',
                                       b'ps: currentpoint currentpoint translate 2 2 scale neg exch neg exch translate', b'pdf:btrans rotate 30'],
            'links': [b'html:<a href="x">', b'ps:SDict begin [/Border [0 0 1] H.B /ANN pdfmark end', b'pdf:bann << >>', b'pdf:ann width 1 << >>'],
            'others': [b'mine: something', b'dvisvgm:raw <g>'],
            None: [b'papersize=1in,1in', b'src:14 a.tex', b'header=a.pro', b'! /x 1 def', b'color pop', b'color push gray 0', b'color push Black',
                   b'color push rgb 0 0 0', b'color push cmyk 0 0 0 1', b'html:</a>', b'html:<a name="x">', b'pdf:dest (x)', b'pdf:pagesize width 9pt',
                   b'ps: currentpoint grestore moveto', b'ps: currentpoint currentpoint translate 1 2 div 1 2 div scale neg exch neg exch translate',
                   b'ps:SDict begin H.S end', b'ps:SDict begin [/Title (x) /DOCINFO pdfmark end', b'pdf:ecolor', b'pdf:eann', b'pdf:etrans', b'landscape', b''],
        }
        found = {kind: [text for text in texts if losses.kind_of(text) != kind] for kind, texts in cases.items()}
        self.assertEqual(found, {kind: [] for kind in cases})

    def test_specials_are_told_by_kind_count_and_first_page(self):
        data = document([special(b'src:1 a'), special(b'color push Red') + special(b'color pop') + special(b'psfile=a.eps'), special(b'color push Blue')])
        self.assertEqual(self.told(data), ('', ['not drawn: colours 2 (from page 2 on), pictures 1 (from page 2 on); all marks are black and upright']))
        self.assertEqual(self.told(document([special(b'src:1 a'), b'\x89' + number(9, 4) * 2])), ('', []))

    def test_sheets_that_documents_ask_for(self):
        """A millimetre is 10/254 inch, a point 100/7227, and 1157 didot points are 1238 points."""
        cases = {
            b'papersize=210mm,297mm': ('300', '--width 2480 --height 3508', '210 by 297 mm: 2480 by 3508 dots'),
            b'papersize=597.50787pt,845.04684pt': ('300', '--width 2480 --height 3508', '210 by 297 mm: 2480 by 3508 dots'),
            b' papersize 11in, 8.5truein': ('600', '--width 6600 --height 5100', '279 by 216 mm: 6600 by 5100 dots'),
            b'papersize=72bp,14.4cm': ('100', '--width 100 --height 567', '25 by 144 mm: 100 by 567 dots'),
            b'papersize=1157dd,0.5in': ('300', '--width 5139 --height 150', '435 by 13 mm: 5139 by 150 dots'),
        }
        for text, (res, wanted, line) in cases.items():
            self.assertEqual(self.told(document([b'', special(text)]), '--res', res), (wanted, [f'it asks for a sheet of {line}']), text)
        for text in (b'papersize=0in,1in', b'papersize=1in', b'papersize=wide,high', b'papersize=-1in,1in', b'papersize=' + b'9' * 200 + b'in,1in'):
            self.assertEqual(self.told(document(special(text))), ('', []), text)
        long = b'papersize=' + b'9' * 9000 + b'in,1in'
        self.assertEqual(self.told(document(b'\xf0' + number(len(long), 2) + long)), ('', []))

    def test_a_sheet_that_is_given_is_the_one(self):
        data = document(special(b'papersize=210mm,297mm'))
        for words in (['--width', '9'], ['--height=9'], ['--paper', 'a5']):
            self.assertEqual(self.told(data, *words)[0], '', words)

    def test_sheets_too_large_or_changing(self):
        out, lines = self.told(document(special(b'papersize=90in,1in')))
        self.assertEqual((out, lines[1:]), ('--width 20000 --height 300', ['dvipbm draws at most 20000 dots a side: the sheet is cut to 20000 by 300']))
        data = document([special(b'papersize=4in,5in'), special(b'papersize=4in,5in'), special(b'papersize=5in,4in')])
        self.assertEqual(self.told(data), ('--width 1200 --height 1500', ['it asks for a sheet of 102 by 127 mm: 1200 by 1500 dots',
                                                                         'page 3 asks for another sheet; all pages are drawn on the first']))

    def test_a_class_that_names_a_sheet(self):
        cases = {'\\documentclass[12pt, a4paper]{article}': '--width 2480 --height 3508', '\\documentclass[%\n a5paper,\n landscape]{book}': '--width 2480 --height 1748',
                 '\\documentclass{article}': '', '% \\documentclass[a4paper]{x}\n\\documentclass[11pt]{article}': '',
                 '\\documentclass[landscape]{article}': '--width 3300 --height 2550', '\\documentclass[b5paper]{x}': '--width 2079 --height 2953'}
        for text, wanted in cases.items():
            self.write('a.tex', text)
            self.assertEqual(self.told(document(b''), '--source', 'a.tex')[0], wanted, text)
        self.write('a.tex', '\\documentclass[a4paper]{article}')
        self.assertEqual(self.told(document(special(b'papersize=1in,2in')), '--source', 'a.tex')[0], '--width 300 --height 600')

    def test_marks_off_the_sheet(self):
        """A rule of 100 by 200 dots, a dot being 65536 * 72.27 / 300 units, that stands at each edge, and beyond it."""
        def units(dots):
            return number(round(dots * 65536 * 72.27 / 300), 4)

        def rule(right, down):
            return b'\x8d\x92' + units(right) + b'\xa0' + units(down) + b'\x89' + units(200) + units(100) + b'\x8e'

        def said(pages, where):
            return [f'marks lie off the sheet of 2550 by 3300 dots and are cut, {pages}: up to {where}']

        within = [rule(-300, -100), rule(2150, 0), rule(0, 3000), rule(2150, 3000)]
        cases = [([*within], []), ([b'', rule(-350, 0)], said('on 1 of 2 pages, first on page 2', '50 dots to the left')),
                 ([rule(0, -130), rule(2250, 0), b''], said('on 2 of 3 pages, first on page 1', '30 dots above, 100 dots to the right')),
                 ([rule(2400, 3600)], said('on 1 of 1 pages, first on page 1', '250 dots to the right, 600 dots below'))]
        for pages, lines in cases:
            self.assertEqual(self.told(document(pages)), ('', lines))
        # Where a page breaks the rules of the stack, the end of the document has its size.
        for broken in (b'\x8d' * 1001 + b'\x8e' * 1001, b'\x8e'):
            self.assertEqual(self.told(document([broken + rule(2250, 0)])), ('', []))
        wide = document([rule(2250, 0)])
        self.assertEqual(self.told(wide, '--width', '2650')[1], [])
        self.assertEqual(self.told(wide, '--left', '200')[1], [])
        self.assertEqual(len(self.told(wide, '--width', '2600')[1]), 1)

    def test_letters_off_the_sheet(self):
        """The sample's T, whose box the TFM file has; without that file, the greatest page as the end of the document has it."""
        def units(dots):
            return round(dots * 65536 * 72.27 / 300)

        far = b'\xab' + b'T' + b'\x92' + number(units(2400), 4) + b'T'
        line = 'marks lie off the sheet of 2550 by 3300 dots and are cut, on 1 of 1 pages, first on page 1: up to '
        [told] = self.told(document(far, definition(0)))[1]
        self.assertTrue(told.startswith(line) and told.endswith(' dots to the right'), told)
        self.assertEqual(self.told(document(b'\xabTTT', definition(0)))[1], [])
        lacking = document(b'\xabT', definition(0, name=b'nosuchfont'))
        self.assertEqual(self.told(sized(lacking, units(2900), units(2200)))[1], [])
        self.assertEqual(self.told(sized(lacking, units(3100), units(2300)))[1], [
            'marks lie off the sheet of 2550 by 3300 dots and are cut, by the size of its greatest page: up to 50 dots to the right, 100 dots below'])

    def test_documents_that_are_refused(self):
        self.write('a.dvi', b'%PDF')
        self.write('b.dvi', document(special(b'papersize=1in,1in')))
        self.assertEqual(self.recipe('losses', 'a.dvi'), (2, '', 'a.dvi: a PDF file, not a DVI file; run tex or latex first, not pdftex or pdflatex\n'))
        self.assertEqual(self.recipe('losses', 'none.dvi')[::2], (66, 'none.dvi: No such file or directory\n'))
        self.assertEqual(self.recipe('losses', 'a.dvi', 'b.dvi')[:2], (1, '--width 300 --height 300\n'))
        status, out, said = self.recipe('losses', '--null', '--workers=2', 'a.dvi', 'b.dvi')
        self.assertEqual((status, out), (0, '--workers 2 \0a.dvi\0--workers 2 --width 300 --height 300\0b.dvi\0'))


class Sheets(Room):
    def test_names(self):
        """The sides in millimetres (ISO 216) and inches, at 300 and 600 dots to the inch, to the nearest dot."""
        cases = {'a3': (297, 420), 'a4': (210, 297), 'a5': (148, 210), 'a6': (105, 148), 'b5': (176, 250), 'letter': (215.9, 279.4),
                 'legal': (215.9, 355.6), 'executive': (184.15, 266.7)}
        for name, (wide, high) in cases.items():
            for res in (300, 600, 203):
                sides = [int(side * res / 25.4 + 0.5) for side in (wide, high)]
                wanted = [(0, f'--width {first} --height {second}\n', '') for first, second in (sides, sides[::-1])]
                found = [self.recipe('sheet', paper, str(res), DVIPBM='/nowhere') for paper in (name, f'{name}-landscape')]
                self.assertEqual(found, wanted, f'{name} {res}')
        self.assertEqual(self.recipe('sheet', 'a9', '300')[0], 64)
        self.assertEqual(self.recipe('sheet', 'a4', '4801')[0], 64)

    @needs('pamsplit', 'pnmtops', 'gs')
    def test_the_resolution_follows_from_the_sheet(self):
        for wide, high, points in ((5100, 6600, b'612 792'), (2480, 3508, b'595.2 841.92'), (3508, 2480, b'841.92 595.2'), (1726, 2233, b'612'), (1200, 600, None)):
            self.write('a.pbm', b'P4\n%d %d\n' % (wide, high) + bytes((wide + 7) // 8 * high))
            status, _, said = self.recipe('to-pdf', 'a.pbm', 'a.pdf')
            self.assertEqual(status, 0 if points else 64, said)
            if points:
                with open(self.path('a.pdf'), 'rb') as file:
                    self.assertIn(b'/MediaBox [0 0 ' + points, file.read(), (wide, high))
        self.assertIn('to-pdf: a.pbm: pages of 1200 by 600 dots are no sheet that has a name; give their dots to the inch', said)

    @needs('pamsplit', 'pnmtops', 'gs')
    def test_a_pdf_has_a_title(self):
        self.write('story.pbm', b'P4\n2550 3300\n' + bytes(319 * 3300))
        for words, title in (([], 'story'), (['300', 'Größe (3) \\'], 'Größe (3) \\')):
            status, _, said = self.recipe('to-pdf', 'story.pbm', '100%d.pdf', *words)
            self.assertEqual((status, said), (0, ''))
            with open(self.path('100%d.pdf'), 'rb') as file:
                written = re.search(rb'/Title\(((?:\\.|[^\\)])*)\)', file.read(), re.S)[1]
            codes = re.sub(rb'\\([0-7]{3}|.)', lambda it: bytes([int(it[1], 8)]) if len(it[1]) == 3 else it[1], written, flags=re.S)
            found = codes[2:].decode('utf-16-be') if codes[:2] == b'\xfe\xff' else codes.decode('latin-1')
            self.assertEqual(found, title, words)

    @needs('pamsplit', 'pnmtops', 'gs')
    def test_raster_and_the_others_are_quiet(self):
        self.write('story.pbm', b'P4\n2550 3300\n' + bytes(319 * 3300))
        for recipe in ('to-raster', 'to-ps', 'to-pdf'):
            self.assertEqual(self.recipe(recipe, 'story.pbm', 'made'), (0, '', ''), recipe)


@needs_program
class Drawn(Room):
    def recipe(self, name, *words, **more):
        return super().recipe(name, *words, **{'DVIPBM': PROGRAM, **more})

    def head(self, name):
        with open(self.path(name), 'rb') as file:
            return file.read(20).split(b'\n')[1]

    def test_draw_takes_the_sheet_that_the_document_asks_for(self):
        self.write('a.dvi', document(special(b'papersize=105mm,148mm') + b'\x89' + number(1 << 20, 4) * 2))
        status, _, said = self.recipe('draw', 'a.dvi', 'a.pbm')
        self.assertEqual((status, self.head('a.pbm')), (0, b'1240 1748'), said)
        self.assertIn('a.dvi: it asks for a sheet of 105 by 148 mm: 1240 by 1748 dots\n', said)
        for words, sides in ((['--paper', 'a4'], b'2480 3508'), (['--paper=a4-landscape', '--res=150'], b'1754 1240'), (['--width', '700'], b'700 3300'),
                             (['--res', '600'], b'2480 3496')):
            status, _, said = self.recipe('draw', 'a.dvi', 'a.pbm', *words)
            self.assertEqual((status, self.head('a.pbm')), (0, sides), said)

    @needs('latex', 'mktexpk', 'mf')
    def test_the_page_of_what_you_will_not_see(self):
        """docs/lost.tex is drawn on letter with every loss told; its picture is what the program draws."""
        status, _, said = self.recipe('draw', f'{TOP}/docs/lost.tex', 'lost.pbm', DVIPBM_FONTS=self.path('fonts'))
        self.assertEqual((status, self.head('lost.pbm')), (0, b'2550 3300'), said)
        for word in ('colours 3 ', 'turned or scaled parts 3 ', 'pictures 1 ', 'links 1 ', 'marks lie off the sheet', 'dots to the right'):
            self.assertIn(word, said)
        sys.path.insert(0, SAMPLE)
        picture = loaded(f'{SAMPLE}/make', 'sample_make').picture
        with open(f'{TOP}/docs/lost.png', 'rb') as file:
            self.assertTrue(picture(self.path('lost.pbm')) == file.read(), 'docs/lost.png is another picture')

    @needs('latex', 'mktexpk', 'mf')
    def test_draw_takes_the_sheet_of_the_class(self):
        self.write('a.tex', '\\documentclass[a5paper]{article}\\pagestyle{empty}\\begin{document}Text.\\end{document}\n')
        status, _, said = self.recipe('draw', 'a.tex', 'a.pbm', DVIPBM_FONTS=self.path('fonts'))
        self.assertEqual((status, self.head('a.pbm')), (0, b'1748 2480'), said)
        self.assertIn('a.dvi: its class asks for a5: 1748 by 2480 dots\n', said)


if __name__ == '__main__':
    unittest.main()
