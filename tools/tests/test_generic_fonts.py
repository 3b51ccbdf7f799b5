"""Fonts as METAFONT writes them: a page with every character is the same with a GF file and with the PK file that gftopk makes of it."""
import concurrent.futures, os, shutil, stat, subprocess, sys, tempfile, unittest

from common import SAMPLE, TOP, definition, document, environment_of, needs, needs_program, number, run

sys.path.insert(0, f'{TOP}/tools')
from dvi_files import Refused
from gf_files import judge_gf

# Computer Modern: roman, bold, slanted, italic, typewriter, sans serif, mathematical italic, symbols and extension; and of LaTeX's
# slides three whose characters have no pixels.
FONTS = ('cmr5 cmr7 cmr10 cmr12 cmr17 cmbx10 cmsl10 cmti10 cmti12 cmtt10 cmss10 cmcsc10 cmmi5 cmmi10 cmmi12 cmmib10 cmsy5 cmsy10 cmbsy10 '
         'cmex10 lasy10 lcircle10 line10').split()
WITHOUT_PIXELS = ('ilcmss8', 'icmsy8', 'icmex10')
MODES = {300: 'cx', 600: 'ljfour'}
POINT = 65536
DOT = bytes.fromhex('f7830044410101010100024a0245f8')


def codes_of(metric):
    """The codes that have a width in a TFM file."""
    first, last = (int.from_bytes(metric[at:at + 2], 'big') for at in (4, 6))
    header = int.from_bytes(metric[2:4], 'big')
    return [code for code in range(first, last + 1) if metric[24 + 4 * header + 4 * (code - first)]]


def all_characters(name, metric):
    """A document at TeX's units that sets each character of a font at a place of its own, half an inch from the next."""
    design = int.from_bytes(metric[24 + 4:24 + 8], 'big') // 16
    apart = 72 * POINT // 2
    body = b'\xab'
    for place, code in enumerate(codes_of(metric)):
        right, down = place % 16 * apart, place // 16 * apart
        body += b'\x8d' + b'\x92' + number(right, 4) + b'\xa0' + number(down, 4) + b'\x80' + bytes([code]) + b'\x8e'
    return document(body, definition(0, name.encode(), design, design))


def made(name, resolution, room):
    """A folder with the font's TFM and GF file, one with its PK file in place of the GF file, and the resolution of the files."""
    os.makedirs(room)
    words = ['mf', rf'\mode:={MODES[resolution]}; mag:=1; nonstopmode; input {name}']
    subprocess.run(words, cwd=room, env=environment_of(room), stdin=subprocess.DEVNULL, stdout=subprocess.DEVNULL)
    generic = f'{name}.{resolution}gf'
    subprocess.run(['gftopk', f'./{generic}'], cwd=room, check=True, capture_output=True)
    for folder, file in (('gf', generic), ('pk', f'{name}.{resolution}pk')):
        os.mkdir(f'{room}/{folder}')
        shutil.copy(f'{room}/{name}.tfm', f'{room}/{folder}')
        shutil.move(f'{room}/{file}', f'{room}/{folder}')


def drawn(name, resolution, room):
    """What the program makes of all the font's characters with each folder, and whether some dots are black."""
    made(name, resolution, room)
    with open(f'{room}/{name}.tfm', 'rb') as file:
        data = all_characters(name, file.read())
    side = resolution // 2
    options = ['--res', str(resolution), '--width', str(17 * side), '--height', str(17 * side), '--left', str(side), '--top', str(side)]
    with_gf, with_pk = (run(data, f'{room}/{folder}', options) for folder in ('gf', 'pk'))
    return with_gf, with_pk, any(with_gf[1].split(b'\n', 2)[-1])


class Files(unittest.TestCase):
    def fault(self, data):
        try:
            return judge_gf(data)
        except Refused as refused:
            return str(refused)

    def test_each_cut_and_each_fault(self):
        cases = {DOT[:length]: f'truncated at {length}' for length in range(len(DOT))}
        cases |= {DOT: None, DOT + b'?': None, b'?': 'preamble', DOT[:13] + b'\xf8' + DOT[14:]: 'misplaced 248',
                  DOT[:3] + b'\xf1' + number(2, 3) + b'hi' + DOT[3:]: None, DOT[:3] + b'E' + DOT[3:]: 'misplaced 69'}
        self.assertEqual({data: self.fault(data) for data in cases}, cases)


class Collected(unittest.TestCase):
    """By tools/collect-fonts, over programs of our own in the place of kpsewhich, mktexpk, METAFONT and gftopk."""

    def setUp(self):
        room = tempfile.TemporaryDirectory()
        self.addCleanup(room.cleanup)
        self.room, self.tools, self.fonts = room.name, f'{room.name}/tools', f'{room.name}/fonts'
        os.mkdir(self.tools)
        os.symlink(shutil.which('cp'), f'{self.tools}/cp')
        for name, data in (('a.dvi', document(b'', definition(0, size=943718))), ('made.gf', DOT)):
            with open(f'{self.room}/{name}', 'wb') as file:
                file.write(data)
        self.tool('kpsewhich', f'for name; do test -f "{SAMPLE}/$name" && echo "{SAMPLE}/$name"; done')
        self.tool('mktexpk', f'while [ $# -gt 1 ]; do [ $1 = --destdir ] && to=$2; shift; done; cp {SAMPLE}/drawn12.432pk "$to/drawn12.360pk"; '
                  'command -v gftopk > /dev/null && echo "$to/drawn12.360pk"')
        self.tool('mf', f'echo "$*" >> {self.room}/asked; cp {self.room}/made.gf drawn12.360gf')

    def tool(self, name, text):
        with open(f'{self.tools}/{name}', 'w') as file:
            file.write(f'#!/bin/sh\n{text}\n')
        os.chmod(f'{self.tools}/{name}', stat.S_IRWXU)

    def collect(self):
        """What the script says, and the files that the folder has then."""
        ran = subprocess.run([sys.executable, f'{TOP}/tools/collect-fonts', 'a.dvi', '300', 'fonts'], capture_output=True, text=True, cwd=self.room,
                             env=environment_of(self.room, PATH=self.tools), timeout=60)
        self.assertEqual(ran.returncode, 0, ran.stderr)
        return ran.stdout, sorted(os.listdir(self.fonts))

    def test_a_gf_file_where_metafont_is_there_without_gftopk(self):
        files = ['drawn12.360gf', 'drawn12.tfm']
        self.assertEqual(self.collect(), ('fonts: 2 files new, 0 there before, 0 missing\n', files))
        self.assertEqual(self.collect(), ('fonts: 0 files new, 2 there before, 0 missing\n', files))
        with open(f'{self.room}/asked') as file:
            self.assertEqual(file.read(), r'\mode:=cx; mag:=1+60/300; nonstopmode; input drawn12' + '\n')

    def test_a_pk_file_where_gftopk_is_there(self):
        self.tool('gftopk', '')
        self.assertEqual(self.collect(), ('fonts: 2 files new, 0 there before, 0 missing\n', ['drawn12.360pk', 'drawn12.tfm']))


@needs_program
@needs('mf', 'gftopk')
class OfMetafont(unittest.TestCase):
    def test_a_page_is_the_same_with_a_gf_and_with_a_pk_file(self):
        fonts = [(name, resolution) for name in (*FONTS, *WITHOUT_PIXELS) for resolution in MODES]
        with tempfile.TemporaryDirectory() as room, concurrent.futures.ThreadPoolExecutor(os.cpu_count()) as pool:
            runs = {font: pool.submit(drawn, *font, f'{room}/{font[0]}.{font[1]}') for font in fonts}
            for (name, resolution), made in runs.items():
                with self.subTest(name=name, resolution=resolution):
                    with_gf, with_pk, is_black = made.result()
                    self.assertEqual((with_gf[0], with_gf[2]), (0, ''))
                    self.assertTrue(with_gf == with_pk, 'the pages differ')
                    self.assertEqual(is_black, name not in WITHOUT_PIXELS)


if __name__ == '__main__':
    unittest.main()
