"""The recipe cups-filter, and how CUPS calls it."""
import os, re, shutil, subprocess, sys, unittest

from common import PROGRAM, RECIPES, SAMPLE, needs, needs_program, run
from test_new_formats import Rooms

# In the place of dvipbm: as many pages of the sides that its options ask for as the document's second number says, each with a mark.
SHEETS = r'''#!{python}
import resource, sys
status, count = map(int, sys.stdin.buffer.read().lstrip(b'\xf7\x02').split())
words = dict(zip(sys.argv[1::2], map(int, sys.argv[2::2])))
wide, high = words['--width'], words['--height']
across = (wide + 7) // 8
for page in range(1, count + 1):
    sys.stdout.buffer.write(b'P4\n%d %d\n' % (wide, high) + bytes(across * page) + b'\xff' + bytes(across * (high - page) - 1))
if status:
    bounds = [f'{resource.getrlimit(which)[0] >> 20} MiB' for which in (resource.RLIMIT_AS, resource.RLIMIT_FSIZE)]
    print('noise\ndvipbm: page 3: a fault' if status == 3 else ', '.join(bounds), file=sys.stderr)
sys.exit(status)
'''


def sheet(wide, high, page):
    """The page of that number that the stand-in draws."""
    across = (wide + 7) // 8
    return b'P4\n%d %d\n' % (wide, high) + bytes(across * page) + b'\xff' + bytes(across * (high - page) - 1)


@needs('pamsplit', 'pnmtops', 'gs', 'timeout')
class Filter(Rooms):
    """The filter over the stand-in, which tells its words on standard error; the pages fill the sheet that was asked for."""

    def setUp(self):
        super().setUp()
        self.write('dvipbm', SHEETS.replace('{python}', sys.executable).encode(), 0o755)

    def filtered(self, options, *words, input=b'0 2', **more):
        more = {'DVIPBM_FONTS': self.room, 'PPD': '', **more}
        return self.called('cups-filter', '12', 'me', 'A title', '2', options, *words, input=input, **more)

    def shown(self, pdf, resolution):
        self.write('a.pdf', pdf)
        ran = subprocess.run(['gs', '-q', '-dBATCH', '-dNOPAUSE', '-sDEVICE=pbmraw', f'-r{resolution}', f'-sOutputFile={self.path("shown.pbm")}', self.path('a.pdf')],
                             stdin=subprocess.DEVNULL, capture_output=True)
        self.assertEqual(ran.returncode, 0, ran.stdout + ran.stderr)
        return re.sub(rb'\n#[^\n]*', b'', self.read('shown.pbm'))

    def test_a_document_from_a_file_and_from_standard_input(self):
        self.write('a.dvi', b'0 2')
        for words, input in ((['a.dvi'], b''), ([], b'0 2')):
            status, pdf, said = self.filtered('printer-resolution=72dpi', *words, input=input)
            self.assertEqual((status, pdf[:5], said), (0, b'%PDF-', ''))
            self.assertEqual(self.shown(pdf, 72), sheet(612, 792, 1) + sheet(612, 792, 2))

    def test_the_file_has_the_job_s_title(self):
        status, pdf, said = self.filtered('printer-resolution=72dpi')
        written = re.search(rb'/Title ?\((.*?)\)\s', pdf, re.S)[1]
        text = re.sub(rb'\\([0-7]{3}|.)', lambda mark: bytes([int(mark[1], 8)]) if mark[1].isdigit() else mark[1], written, flags=re.S)
        self.assertEqual((status, text.decode('utf-16') if text[:2] == b'\xfe\xff' else text.decode()), (0, 'A title'))

    def test_which_sheet_and_resolution_options_ask_for(self):
        self.write('printer.ppd', b'*PPD-Adobe: "4.3"\r\n*DefaultPageSize: Legal\r\n')
        for options, wide, high, resolution in (
            ('', 2550, 3300, 300),
            ('sides=one media=A4 Resolution=100dpi', 827, 1169, 100),
            ('PageSize=A5 printer-resolution=100x100dpi', 583, 827, 100),
            ('media=iso_a4_210x297mm,MainTray printer-resolution=100dpi', 827, 1169, 100),
            ('media=na_legal_8.5x14in printer-resolution=100dpi', 850, 1400, 100),
            ('media=Letter media=A6 printer-resolution=100dpi', 413, 583, 100),
        ):
            status, pdf, said = self.filtered(options)
            self.assertEqual((status, said), (0, ''))
            self.assertTrue(self.shown(pdf, resolution) == sheet(wide, high, 1) + sheet(wide, high, 2), options)
        status, pdf, said = self.filtered('printer-resolution=100dpi', PPD=self.path('printer.ppd'))
        self.assertEqual((status, said, self.shown(pdf, 100)), (0, '', sheet(850, 1400, 1) + sheet(850, 1400, 2)))

    def test_a_sheet_that_nobody_knows_is_told(self):
        status, pdf, said = self.filtered('media=Foolscap printer-resolution=72dpi')
        self.assertEqual((status, said), (0, "WARNING: dvipbm's filter: it knows no sheet Foolscap; drawn on US letter\n"))
        self.assertEqual(self.shown(pdf, 72), sheet(612, 792, 1) + sheet(612, 792, 2))

    def test_a_fault_is_a_line_of_the_log_and_no_page(self):
        for input, line in ((b'3 2', 'dvipbm: page 3: a fault (status 3)'), (b'0 0', 'the document has no page')):
            self.assertEqual(self.filtered('', input=input), (1, b'', f"ERROR: dvipbm's filter: {line}\n"))
        self.assertEqual(self.filtered('', 'none.dvi')[:2], (1, b''))

    def test_nothing_of_a_job_stays(self):
        os.mkdir(self.path('jobs'))
        for input in (b'0 2', b'3 2'):
            self.filtered('printer-resolution=72dpi', input=input, TMPDIR=self.path('jobs'))
            self.assertEqual(os.listdir(self.path('jobs')), [])

    def test_a_job_has_bounds(self):
        """The stand-in tells those of memory and of a file at the status 9."""
        self.assertEqual(self.filtered('', input=b'9 0'), (1, b'', "ERROR: dvipbm's filter: 1024 MiB, 4096 MiB (status 9)\n"))

    @needs('cupsfilter')
    def test_cups_calls_it_for_a_dvi_document(self):
        """By CUPS's own cupsfilter, with tables and filters of this test."""
        for folder in ('etc', 'share/mime', 'lib/filter'):
            os.makedirs(self.path(folder))
        self.write('etc/cups-files.conf', ''.join(f'{word} {self.path(folder)}\n' for word, folder in (
            ('ServerRoot', 'etc'), ('DataDir', 'share'), ('ServerBin', 'lib'))).encode())
        self.write('share/mime/dvi.types', b'application/pdf pdf string(0,%PDF)\napplication/x-dvi dvi string(0,<F702>)\n')
        self.write('share/mime/dvi.convs', b'application/x-dvi application/pdf 50 dvitopdf\n')
        self.write('lib/filter/dvitopdf', f'#!/bin/sh\nDVIPBM="{self.path("dvipbm")}" DVIPBM_FONTS="{self.room}" exec "{RECIPES}/cups-filter" "$@"\n'.encode(), 0o755)
        self.write('a.dvi', b'\xf7\x020 2')
        ran = subprocess.run(['cupsfilter', '-c', self.path('etc/cups-files.conf'), '-m', 'application/pdf', '-o', 'media=A4', '-o', 'Resolution=72dpi', 'a.dvi'],
                             cwd=self.room, stdin=subprocess.DEVNULL, capture_output=True)
        self.assertEqual(ran.returncode, 0, ran.stderr.decode())
        self.assertEqual(self.shown(ran.stdout, 72), sheet(595, 842, 1) + sheet(595, 842, 2))

    @needs_program
    def test_with_the_program_itself(self):
        with open(f'{SAMPLE}/sample.dvi', 'rb') as file:
            data = file.read()
        status, pdf, said = self.filtered('media=letter', input=data, DVIPBM=PROGRAM, DVIPBM_FONTS=SAMPLE)
        self.assertEqual((status, said), (0, ''))
        self.assertTrue(self.shown(pdf, 300) == run(data)[1])
        self.assertEqual(self.filtered('', input=data[:99], DVIPBM=PROGRAM, DVIPBM_FONTS=SAMPLE)[1:],
                         (b'', f"ERROR: dvipbm's filter: {run(data[:99])[2].rstrip()} (status 2)\n"))


if __name__ == '__main__':
    unittest.main()
