"""--tolerant of the real program: pages that lack fonts, characters, glyphs and packets, over small fonts made here; all values are worked
out by hand from docs/FORMATS.md. A unit of the documents is half a dot."""
import os, resource, shutil, subprocess, tempfile, unittest

from common import PROGRAM, SAMPLE, definition, document, needs_program, number

# A rule of one dot, which stands in the column of hh.
RULE = b'\x89' + number(2, 4) + number(2, 4)
# 2^20 units of a fix_word are the size of a font; so many of a design size of 128 units in these documents.
SIZE, POINTS = 1 << 20, 16166525


def metric(widths):
    """A TFM file: a width, as a fix_word, for each code."""
    first, last = min(widths), max(widths)
    table = sorted(set(widths.values()))
    infos = b''.join(bytes([table.index(widths[code]) + 1 if code in widths else 0, 0, 0, 0]) for code in range(first, last + 1))
    counts = [0, 2, first, last, len(table) + 1, 1, 1, 1, 0, 0, 0, 0]
    counts[0] = 6 + 2 + last - first + 1 + len(table) + 1 + 3
    return b''.join(number(count, 2) for count in counts) + bytes(8) + infos + bytes(4) + b''.join(number(width, 4) for width in table) + bytes(12)


def packed(*codes):
    """A PK file in which each code is a square of two by two dots, whose lower left one is the reference pixel."""
    return b'\xf7\x59' + bytes(17) + b''.join(bytes.fromhex(f'e009{code:02x}01000004020200 01f0') for code in codes) + b'\xf5'


def virtual(fonts, packets):
    """A VF file: names of local fonts of the font's own size, and the commands of each code."""
    local = b''.join(b'\xf3' + bytes([place]) + bytes(4) + number(SIZE, 4) + number(POINTS, 4) + bytes([0, len(name)]) + name.encode()
                     for place, name in enumerate(fonts))
    return b'\xf7\xca' + bytes(9) + local + b''.join(bytes([len(text), code]) + bytes(3) + text for code, text in packets.items()) + b'\xf8'


# Widths of 8 units, which are four dots, and of 20. "raw" has a glyph for one of its two codes, "bare" has no PK file, "none" isn't there.
# Of the virtual ones "vir" has a packet for one of its two codes, "mix" sets "dot", then "none", "raw" and "bare", and "loop" itself.
FILES = {
    'dot.tfm': metric({65: 65536}), 'dot.300pk': packed(65), 'raw.tfm': metric({65: 65536, 66: 65536}), 'raw.300pk': packed(65),
    'bare.tfm': metric({65: 65536}), 'vir.tfm': metric({65: 65536, 66: 65536}), 'vir.vf': virtual(['dot'], {65: b'A'}),
    'mix.tfm': metric({65: 163840}), 'mix.vf': virtual(['dot', 'none', 'raw', 'bare'], {65: b'A\xacA\xadB\xaeA\xabA'}),
    'loop.tfm': metric({65: 65536}), 'loop.vf': virtual(['loop'], {65: b'A'}),
    'cut.tfm': metric({65: 65536})[:-1], 'bad.tfm': metric({65: 65536}), 'bad.300pk': packed(65)[:-1],
}


def fonts(*names):
    """Definitions of 20 bytes for names of four letters, of 19 for three."""
    return b''.join(definition(place, name.encode(), 128, 128) for place, name in enumerate(names))


def drawing(bodies, *names):
    return document(bodies, fonts(*names), num=1270, den=3)


def place(*names):
    """Where the first command of the first page stands."""
    return 60 + len(fonts(*names))


def image(wide, *rows):
    return f'P4\n{wide} {len(rows)}\n'.encode() + bytes.fromhex(''.join(rows))


@needs_program
class Tolerant(unittest.TestCase):
    @classmethod
    def setUpClass(cls):
        cls.folder = tempfile.mkdtemp()
        cls.addClassCleanup(shutil.rmtree, cls.folder)
        for name, data in FILES.items():
            with open(os.path.join(cls.folder, name), 'wb') as file:
                file.write(data)

    def drawn(self, data, sheet, *words, option=('--tolerant',), fonts=None, **how):
        """The status, the pages and the notes of a run on a sheet, four numbers."""
        sides = [word for name, side in zip(('--width', '--height', '--left', '--top'), sheet.split()) for word in (name, side)]
        how = {'stdout': subprocess.PIPE, 'stderr': subprocess.PIPE} | how
        ran = subprocess.run([PROGRAM, *sides, *option, *words], input=data, timeout=60, env={**os.environ, 'DVIPBM_FONTS': fonts or self.folder}, **how)
        return ran.returncode, ran.stdout, None if ran.stderr is None else ran.stderr.decode().splitlines()


class Lacks(Tolerant):
    def test_a_font_without_a_tfm_file_takes_no_room(self):
        data = drawing(b'\xabA' + RULE, 'none')
        lines = ['dvipbm: page 1 at 81: tolerated font none 128 128: missing tfm', '1 look none 128 128 claimed', '1 fill none 128 128 evict -']
        self.assertEqual(self.drawn(data, '8 1 0 0', '--workers', '1', '--trace'), (0, image(8, '80'), lines))
        self.assertEqual(self.drawn(data, '8 1 0 0', option=()), (4, b'', ['dvipbm: page 1 at 81: font none 128 128: missing tfm']))

    def test_a_font_without_a_pk_file_has_its_widths(self):
        data = drawing(b'\xabA' + RULE, 'bare')
        self.assertEqual(self.drawn(data, '8 1 0 0'), (0, image(8, '08'), ['dvipbm: page 1 at 81: tolerated font bare 128 128: missing pk']))
        self.assertEqual(self.drawn(data, '8 1 0 0', option=()), (4, b'', ['dvipbm: page 1 at 81: font bare 128 128: missing pk']))

    def test_a_character_without_a_width_takes_no_room(self):
        """Of four pages two are whole, one lacks a character, and one has a fault that no option tolerates."""
        data = drawing([b'\xabA', b'\xabB', b'\xabA', b'\xac'], 'dot')
        lines = ['dvipbm: page 2 at 128: tolerated no character 66 in dot 128 128', 'dvipbm: page 4 at 223: no font 1']
        square = image(8, 'c0', 'c0')
        for workers in ('1', '2', '8'):
            self.assertEqual(self.drawn(data, '8 2 0 1', '--workers', workers), (3, square + image(8, '00', '00') + square, lines), workers)
        self.assertEqual(self.drawn(data, '8 2 0 1', option=()), (3, square, ['dvipbm: page 2 at 128: no character 66 in dot 128 128']))

    def test_a_glyph_that_is_missing_moves_where_it_is_set(self):
        """B is set twice and put once, so A stands in the ninth column."""
        data = drawing(b'\xabBB\x85BA', 'raw')
        lines = ['dvipbm: page 1 at 80: tolerated no glyph 66 in raw 128 128']
        self.assertEqual(self.drawn(data, '16 2 0 1'), (0, image(16, '00c0', '00c0'), lines))

    def test_a_packet_that_is_missing_moves_where_it_is_set(self):
        data = drawing(b'\xabB\x85BA', 'vir')
        lines = ['dvipbm: page 1 at 80: tolerated no packet 66 in vir 128 128']
        self.assertEqual(self.drawn(data, '8 2 0 1'), (0, image(8, '0c', '0c'), lines))

    def test_what_a_packet_lacks(self):
        """A square; a character that takes no room; two of four dots, a glyph and a font that are missing; a square at twelve dots; and the
        rule behind the packet at ten, its own width. Each has the place of the page's command, also where it is set again."""
        data = drawing(b'\xabA' + RULE, 'mix')
        lines = [f'dvipbm: page 1 at 80: tolerated {lack}' for lack in
                 ('font none 128 128: missing tfm', 'no glyph 66 in raw 128 128', 'font bare 128 128: missing pk')]
        self.assertEqual(self.drawn(data, '16 2 0 1'), (0, image(16, 'c00c', 'c02c'), lines))
        again = drawing(b'\xabAA', 'mix')
        self.assertEqual(self.drawn(again, '24 2 0 1')[::2], (0, lines))

    def test_equal_ones_have_one_line_a_page(self):
        data = drawing([b'\xabBABAB', b'\xabB\xacC\xabB', b'\xabA'], 'dot', 'raw')
        second = place('dot', 'raw') + 6 + 46
        lines = [f'dvipbm: page 1 at {place("dot", "raw") + 1}: tolerated no character 66 in dot 128 128',
                 f'dvipbm: page 2 at {second + 1}: tolerated no character 66 in dot 128 128',
                 f'dvipbm: page 2 at {second + 3}: tolerated no character 67 in raw 128 128']
        for workers in ('1', '2', '8'):
            found = self.drawn(data, '8 2 0 1', '--workers', workers)
            self.assertEqual((found[0], found[1].count(b'P4\n'), found[2]), (0, 3, lines), workers)

    def test_the_sample_at_another_resolution(self):
        """Its two fonts of glyphs are there for 300 dots to the inch alone. Page i has 1 + i mod 3 lines, of nine bytes each. Of each of the
        two fonts eight files are asked for, of the virtual one two."""
        for more in ([], ['--packed']):
            status, pages, notes = self.drawn(b'', '40 48 0 4', '--sample', '3', '--res', '600', '--summary', *more)
            lines = [f'dvipbm: page {page} at {at}: tolerated font {name} 128 128: missing pk'
                     for page, at in ((1, 119), (2, 190), (3, 270)) for name in ('dot', 'bar')]
            counts = ['pages 3', 'looks 54', 'hits 51', 'claims 3', 'busy 0', 'evictions 0', 'releases 0', 'loads 18', 'black 0']
            self.assertEqual((status, pages, notes), (0, 3 * image(40, *48 * ['0000000000']), lines + counts))

    def test_a_document_that_lacks_nothing(self):
        with open(f'{SAMPLE}/sample.dvi', 'rb') as file:
            data = file.read()
        with_it, without = (self.drawn(data, '2550 3300 300 300', option=option, fonts=SAMPLE) for option in (('--tolerant',), ()))
        self.assertTrue(with_it == without)
        self.assertEqual(without[::2], (0, []))

    def test_a_folder_that_is_not_there(self):
        self.assertEqual(self.drawn(drawing(b'\xabA', 'dot'), '8 1 0 0', fonts=os.path.join(self.folder, 'no folder')),
                         (0, image(8, '00'), ['dvipbm: page 1 at 80: tolerated font dot 128 128: missing tfm']))


class Faults(Tolerant):
    def test_what_is_not_tolerated(self):
        page = 'dvipbm: page 1 at {}: {}'.format
        for body, names, status, line in (
            (b'\xac', ['dot'], 3, page(79, 'no font 1')), (b'A', ['dot'], 3, page(79, 'no current font')),
            (b'\xabB\x8e', ['dot'], 3, page(81, 'stack empty')), (b'\xabA\x8d', ['bare'], 3, page(83, 'stack left')),
            (b'\xabA', ['loop'], 3, page(81, 'depth at 65 in loop 128 128')),
            (b'\xabA', ['cut'], 4, page(80, 'font cut 128 128: tfm short')), (b'\xabA', ['bad'], 4, page(80, 'font bad 128 128: pk short')),
            (b'\xabA', ['a b'], 4, page(80, 'font a?b 128 128: name')),
        ):
            self.assertEqual(self.drawn(drawing(body, *names), '8 1 0 0'), (status, b'', [line]), (body, names))

    def test_a_resolution_out_of_range(self):
        """300 dots to the inch times 4000."""
        data = document(b'\xabA', definition(0, b'bare', 4000, 1), num=1270, den=3)
        self.assertEqual(self.drawn(data, '8 1 0 0'), (4, b'', ['dvipbm: page 1 at 81: font bare 4000 1: size']))

    def test_a_file_that_cannot_be_read(self):
        """A folder in the place of a font file, and a file in that of the folder."""
        with tempfile.TemporaryDirectory() as folder:
            os.mkdir(f'{folder}/dot.tfm')
            for place in (folder, os.path.join(self.folder, 'dot.tfm')):
                self.assertEqual(self.drawn(drawing(b'\xabA', 'dot'), '8 1 0 0', fonts=place), (5, b'', ['dvipbm: page 1: font source failed']))

    def test_a_page_that_stops_has_no_line_of_a_lack(self):
        data = drawing([b'\xabB', b'\xabB\x8e'], 'dot')
        self.assertEqual(self.drawn(data, '8 1 0 0')[::2], (3, ['dvipbm: page 1 at 80: tolerated no character 66 in dot 128 128',
                                                                'dvipbm: page 2 at 129: stack empty']))

    def test_arguments(self):
        for words in (['--tolerant'], ['--tolerant=1'], ['--tolerant='], ['--tol'], ['1']):
            self.assertEqual(self.drawn(b'', '8 1 0 0', *words, option=['--tolerant']), (1, b'', ['dvipbm: usage']), words)


class Streams(Tolerant):
    DATA = drawing([b'\xabBB\xacA', b'\xabA', b'\xac\x85A\xabB'], 'dot', 'none')
    PAGES = [image(8, '00', '00'), image(8, 'c0', 'c0'), image(8, '00', '00')]
    FIRST = place('dot', 'none')
    THIRD = FIRST + 2 * 46 + 5 + 2
    LINES = [[f'dvipbm: page 1 at {FIRST + 1}: tolerated no character 66 in dot 128 128',
              f'dvipbm: page 1 at {FIRST + 4}: tolerated font none 128 128: missing tfm'], [],
             [f'dvipbm: page 3 at {THIRD + 1}: tolerated font none 128 128: missing tfm',
              f'dvipbm: page 3 at {THIRD + 4}: tolerated no character 66 in dot 128 128']]

    def test_lines_in_the_order_of_the_pages(self):
        for workers in ('1', '2', '4', '32'):
            self.assertEqual(self.drawn(self.DATA, '8 2 0 1', '--workers', workers), (0, b''.join(self.PAGES), sum(self.LINES, [])), workers)

    def test_the_lines_of_a_page_come_right_after_it(self):
        """Both streams go to one pipe."""
        wanted = b''.join(page + b''.join(f'{line}\n'.encode() for line in lines) for page, lines in zip(self.PAGES, self.LINES))
        for workers in ('1', '4'):
            self.assertEqual(self.drawn(self.DATA, '8 2 0 1', '--workers', workers, stderr=subprocess.STDOUT), (0, wanted, None), workers)

    def test_trace_and_summary_come_last(self):
        notes = self.drawn(self.DATA, '8 2 0 1', '--trace', '--summary')[2]
        self.assertEqual(notes[:4], sum(self.LINES, []))
        self.assertEqual([line.split()[0] for line in notes[4:]], 7 * ['1'] + 'pages looks hits claims busy evictions releases loads black'.split())

    def test_notes_that_fail(self):
        """They change no page, and decide only between 0 and 8."""
        stopped = drawing([b'\xabB', b'\xabA', b'\x8e'], 'dot')
        for data, status, pages in ((self.DATA, 8, self.PAGES), (stopped, 3, self.PAGES[:2]), (drawing(b'\xabA', 'dot'), 0, self.PAGES[1:2])):
            for workers in ('1', '4'):
                with open('/dev/full', 'wb') as full:
                    self.assertEqual(self.drawn(data, '8 2 0 1', '--workers', workers, stderr=full)[:2], (status, b''.join(pages)))

    def test_an_output_that_fails(self):
        with open('/dev/full', 'wb') as full:
            self.assertEqual(self.drawn(self.DATA, '8 2 0 1', stdout=full)[::2], (7, ['dvipbm: page 1: output failed']))

    def test_pages_of_several_rounds(self):
        """A hundred pages, of which every third lacks a character."""
        bodies = [b'\xabA' if page % 3 else b'\xabB' for page in range(1, 101)]
        lines = [f'dvipbm: page {page} at {80 + (page - 1) * 48}: tolerated no character 66 in dot 128 128' for page in range(3, 101, 3)]
        pages = b''.join(image(8, 'c0', 'c0') if page % 3 else image(8, '00', '00') for page in range(1, 101))
        for workers in ('1', '2', '8', '32'):
            self.assertEqual(self.drawn(drawing(bodies, 'dot'), '8 2 0 1', '--workers', workers), (0, pages, lines), workers)


class Many(Tolerant):
    """Codes that a font doesn't have, each as set4."""

    def codes(self, count):
        return b''.join(b'\x83' + number(code, 4) for code in range(1000, 1000 + count))

    def test_each_code_once_in_order(self):
        count = 20000
        text = self.codes(count)
        lines = [f'dvipbm: page 1 at {80 + 5 * n}: tolerated no character {1000 + n} in dot 128 128' for n in range(count)]
        found = self.drawn(drawing(b'\xab' + text + text, 'dot'), '8 1 0 0')
        self.assertEqual(found[:2], (0, image(8, '00')))
        self.assertTrue(found[2] == lines)

    def test_memory_is_the_only_bound(self):
        """Two million codes, in 64 MiB of address space."""
        data = drawing(b'\xab' + self.codes(2_000_000), 'dot')
        limit = lambda: resource.setrlimit(resource.RLIMIT_AS, (64 << 20, 64 << 20))
        self.assertEqual(self.drawn(data, '8 1 0 0', preexec_fn=limit), (9, b'', ['dvipbm: out of memory']))


if __name__ == '__main__':
    unittest.main()
