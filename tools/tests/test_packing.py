"""Fonts that gftopk packed are packed again by the crate glyph_packing: the dots are the same, and no glyph takes more bytes."""
import os, subprocess, sys, tempfile, unittest

from common import TOP, environment_of, needs

sys.path.insert(0, f'{TOP}/tools')
from pk_files import glyph, packets, rows_of

PACKING = f'{TOP}/crates/glyph_packing/out/glyph_packing'
FONTS = ('cmr5 cmr6 cmr7 cmr8 cmr9 cmr10 cmr12 cmr17 cmbx10 cmbx12 cmbxti10 cmti10 cmsl10 cmsl12 cmcsc10 cmtt10 cmitt10 cmsltt10 cmvtt10 '
         'cmss10 cmssi10 cmssbx10 cmssdc10 cmmi10 cmmib10 cmsy10 cmbsy10 cmex10 cmdunh10 cmff10 cmu10 cminch').split()
SQUARE = b'\xf7\x59' + bytes(17) + bytes([0xe0, 10, 65, 0, 0, 0, 0, 4, 4, 0, 0, 0xff, 0xff, 0xf5])


def packed_again(data):
    """By the code of each glyph its sides, the flag and the bytes that the program gives it."""
    ran = subprocess.run([PACKING], input=data, capture_output=True, timeout=60)
    found = {}
    for line in ran.stdout.decode('ascii').splitlines():
        code, wide, high, dyn_f, black, text = line.split(' ')
        found[int(code)] = int(wide), int(high), int(dyn_f) << 4 | (black == 'true') << 3, bytes.fromhex(text)
    return ran.returncode, found


def given(data):
    """The same of the file itself, with the rows of each glyph."""
    found = {}
    for flag, code, packet in packets(data):
        form = flag & 7
        size = 4 if form == 7 else 2 if form >= 4 else 1
        at = 12 if form == 7 else 3 + size
        wide, high = (int.from_bytes(packet[at + k * size:at + (k + 1) * size], 'big') for k in (0, 1))
        found[code] = wide, high, glyph(flag, packet)[5], packet[at + 4 * size:]
    return found


@unittest.skipUnless(os.path.exists(PACKING), f'there is no {PACKING}: run rt run in its crate first')
class Packing(unittest.TestCase):
    def compared(self, name, data):
        """How many bytes the rasters of a file have, and how many they are packed in; each of them is compared."""
        before = given(data)
        status, after = packed_again(data)
        self.assertEqual((status, sorted(after)), (0, sorted(before)), name)
        for code, (wide, high, rows, raster) in before.items():
            found = after[code]
            self.assertEqual(found[:2], (wide, high), f'{name} {code}')
            drawn = rows_of(found[2], wide, high, found[3]) if wide and high else []
            self.assertEqual(drawn, rows, f'{name} {code}')
            self.assertLessEqual(len(found[3]), len(raster), f'{name} {code}')
        return sum(len(raster) for *_, raster in before.values()), sum(len(packed) for *_, packed in after.values())

    def test_a_square(self):
        self.assertEqual(self.compared('square', SQUARE), (2, 1))

    @needs('mf', 'gftopk')
    def test_fonts_of_metafont(self):
        sums = []
        with tempfile.TemporaryDirectory() as room:
            environment = environment_of(room)
            for name in FONTS:
                drawn = subprocess.run(['mf', '-interaction=batchmode', rf'\mode:=ljfour; input {name}'], cwd=room, env=environment,
                                       stdin=subprocess.DEVNULL, capture_output=True)
                packed = subprocess.run(['gftopk', f'{name}.600gf', 'font.pk'], cwd=room, env=environment, capture_output=True)
                if drawn.returncode == 0 and packed.returncode == 0:
                    with open(f'{room}/font.pk', 'rb') as file:
                        sums.append(self.compared(name, file.read()))
        self.assertGreaterEqual(len(sums), 30)
        before, after = (sum(each) for each in zip(*sums))
        print(f'{len(sums)} fonts of gftopk: rasters of {before} bytes, packed again {before - after} fewer', file=sys.stderr)


if __name__ == '__main__':
    unittest.main()
