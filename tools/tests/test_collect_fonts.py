"""The reading of documents and virtual fonts by tools/collect-fonts, and what it puts into a folder."""
import importlib.machinery, importlib.util, os, re, resource, shutil, stat, subprocess, sys, tempfile, unittest

from common import SAMPLE, TOP, definition, document, environment_of, needs, needs_program, number, run

SCRIPT = f'{TOP}/tools/collect-fonts'


def loaded():
    loader = importlib.machinery.SourceFileLoader('collect_fonts', SCRIPT)
    module = importlib.util.module_from_spec(importlib.util.spec_from_loader('collect_fonts', loader))
    loader.exec_module(module)
    return module


collect = loaded()
collect_pk = sys.modules['pk_files']
UNITS = number(25400000, 4) + number(473628672, 4) + number(1000, 4)


def fault(data):
    """The fault that the script finds in a document, or None."""
    try:
        collect.Document(data, 300)
    except collect.Refused as refused:
        return str(refused)
    return None


def changed(data, at, byte):
    return data[:at] + bytes([byte]) + data[at + 1:]


class Documents(unittest.TestCase):
    def test_each_fault_is_named(self):
        good = document(b'a', definition(0))
        bop, post = 15 + len(definition(0)), 15 + len(definition(0)) + 47
        cases = {
            b'': 'truncated at 0',
            changed(good, 0, 246): 'preamble at 0',
            changed(good, 1, 3): 'preamble at 1',
            document(num=0): 'preamble at 2',
            document(den=-1): 'preamble at 6',
            document(mag=0): 'preamble at 10',
            document(num=2 ** 30, den=1): 'scale at 2',
            changed(good, 15, 250): 'command undefined 250 at 15',
            changed(good, 15, 140): 'command misplaced 140 at 15',
            document(b'\xf2' + number(-1, 4)): 'command negative length at 60',
            document(fonts=definition(7, size=0)): 'font definition 7 at 15',
            document(fonts=definition(7) + definition(7, size=9)): f'font clash 7 at {15 + len(definition(7))}',
            changed(good, bop + 44, 0): f'back pointer at {bop}',
            changed(good, post + 4, 0): f'postamble pointer at {post}',
            changed(good, post + 8, 1): f'postamble num at {post}',
            changed(good, post + 12, 1): f'postamble den at {post}',
            changed(good, post + 16, 1): f'postamble mag at {post}',
            document(b'a', pages=2): 'postamble pages at 62',
            document(b'a', filler=b'\xdf\xdf\xdf\x00'): f'trailer at {len(document(b"a", filler=b"")) + 3}',
            document(b'a', filler=b'\xdf\xdf\xdf'): f'truncated at {len(document(b"a", filler=b"")) + 3}',
        }
        self.assertEqual({data: fault(data) for data in cases}, cases)
        self.assertIsNone(fault(good))

    def test_a_long_document_is_refused(self):
        self.assertEqual(fault(bytes(67_108_865)), 'too long at 67108864')

    @needs_program
    def test_it_refuses_what_the_program_refuses(self):
        """Every cut of a document, and every byte of it changed in five ways: both find the same fault, or none."""
        good = document([b'a\x8d\x91\x01\x02\x03\x8e', b'\xefAz\xef\x02hi\x8a'], definition(0) + definition(1, area=b'x'))
        cases = [good[:cut] for cut in range(len(good))]
        cases += [changed(good, at, byte) for at in range(len(good)) for byte in {0, 255, 140, good[at] ^ 1, good[at] ^ 128}]
        differ = []
        for data in cases:
            status, _, notes = run(data)
            found = fault(data)
            said = notes.removeprefix('dvipbm: document: ').rstrip('\n') if status == 2 else None
            if said != found:
                differ.append((data.hex(), said, found))
        self.assertEqual(differ, [])

    def test_resolutions(self):
        made = collect.Document(document(mag=1200), 300)
        sizes = {786432: 360, 1: 0, 786432 * 3: 1080, 655360: 300, 786433: 360}
        self.assertEqual({size: made.resolution_of(collect.Font(b'', b'f', size, 786432), 300) for size in sizes}, sizes)

    @needs_program
    def test_the_program_asks_for_that_resolution(self):
        """With the PK file of the resolution that the script says the program draws; with the one two below it has none."""
        for size, mag in ((786432, 1000), (786432, 1095), (1132462, 1000), (700001, 1440)):
            dpi = collect.Document(document(mag=mag), 300).resolution_of(collect.Font(b'', b'drawn12', size, 786432), 300)
            data = document(b'\xabT', definition(0, size=size), mag=mag)
            with tempfile.TemporaryDirectory() as folder:
                shutil.copy(f'{SAMPLE}/drawn12.tfm', folder)
                shutil.copy(f'{SAMPLE}/drawn12.300pk', f'{folder}/drawn12.{dpi - 2}pk')
                self.assertEqual(run(data, folder)[2], f'dvipbm: page 1 at {61 + len(definition(0))}: font drawn12 {size} 786432: missing pk\n')
                shutil.copy(f'{SAMPLE}/drawn12.300pk', f'{folder}/drawn12.{dpi}pk')
                self.assertEqual(run(data, folder)[::2], (0, ''))


def virtual(items, end=b'\xf8'):
    return bytes([247, 202, 0]) + bytes(4) + number(10 << 20, 4) + items + end


def local(font, name, factor=1 << 20, design=10 << 20):
    return b'\xf3' + bytes([font]) + bytes(4) + number(factor, 4) + number(design, 4) + bytes([0, len(name)]) + name


class VirtualFonts(unittest.TestCase):
    def fault(self, data):
        try:
            return collect.virtual_fonts(data)
        except collect.Refused as refused:
            return str(refused)

    def test_local_fonts_are_found_among_packets(self):
        items = local(0, b'one') + b'\x02A\0\0\0ab' + b'\xf2' + number(3, 4) + number(66, 4) + bytes(4) + b'abc' + local(1, b'two', 7)
        self.assertEqual(self.fault(virtual(items)), [(b'', b'one', 1 << 20, 10 << 20), (b'', b'two', 7, 10 << 20)])

    def test_each_fault_is_named(self):
        cases = {
            b'\xf7\x02': 'preamble',
            virtual(b'', b''): 'truncated at 11',
            virtual(b'\x02A\0\0\0a', b''): 'truncated at 17',
            virtual(b'\xf9'): 'misplaced 249',
            virtual(local(3, b'a', 0)): 'local font 3',
            virtual(local(3, b'a', 2 ** 24)): 'local font 3',
            virtual(local(3, b'a', design=0)): 'local font 3',
            virtual(local(3, b'a') + local(3, b'b')): 'local font 3',
        }
        self.assertEqual({data: self.fault(data) for data in cases}, cases)

    @needs_program
    def test_it_refuses_what_the_program_refuses(self):
        """Every cut of a virtual font, and each of its opcodes and sizes changed: both find the same fault, or none."""
        good = virtual(local(3, b'a') + b'\x01A\0\0\0\x8a')
        cases = [good[:cut] for cut in range(len(good))] + [changed(good, at, byte) for at in (0, 1) for byte in (0, 255)]
        cases += [virtual(local(3, b'a', *sizes)) for sizes in ((0,), (2 ** 24,), (1, 0), (1, -1))]
        cases += [virtual(local(3, b'a') + local(3, b'b')), *(virtual(bytes([opcode])) for opcode in (247, 249, 255))]
        data, differ = document(b'\xabT', definition(0)), []
        with tempfile.TemporaryDirectory() as folder:
            shutil.copy(f'{SAMPLE}/drawn12.tfm', folder)
            for font in cases:
                with open(f'{folder}/drawn12.vf', 'wb') as file:
                    file.write(font)
                notes = run(data, folder)[2]
                if notes.endswith(': not yet\n'):
                    self.skipTest('the program reads no virtual fonts yet')
                said = notes.rstrip('\n').split(': vf ')[1] if ': vf ' in notes else []
                found = self.fault(font)
                found = found if isinstance(found, str) else []
                if said != (found and found.split(' at ')[0].replace('truncated', 'short')):
                    differ.append((font.hex(), said, found))
        self.assertEqual(differ, [])

    def test_keys_of_local_fonts(self):
        made = collect.Document(document(), 300).local(b'', b'f', 1 << 19, 10 << 20, 1 << 24)
        self.assertEqual((made.size, made.design), (1 << 23, 655360))


class Folders(unittest.TestCase):
    """Over programs of our own in the place of kpsewhich and mktexpk."""

    def setUp(self):
        self.room = tempfile.mkdtemp()
        self.addCleanup(shutil.rmtree, self.room)
        self.folder, self.tree, self.tools = (os.path.join(self.room, name) for name in ('fonts', 'tree', 'tools'))
        os.mkdir(self.tree)
        os.mkdir(self.tools)
        self.tool('kpsewhich', 'all=0; for name; do if test -f "$TREE/$name"; then echo "$TREE/$name"; else all=1; fi; done; exit $all')
        self.tool('mktexpk', 'echo "$*" >> "$TREE/asked"; while [ $# -gt 1 ]; do [ $1 = --dpi ] && dpi=$2; [ $1 = --destdir ] && to=$2; shift; done; '
                  'test -f "$TREE/made.pk" && cp "$TREE/made.pk" "$to/$1.${dpi}pk" && echo "$to/$1.${dpi}pk"')
        self.document = os.path.join(self.room, 'a.dvi')
        self.write(self.document, document(b'', definition(0) + definition(1, size=943718)))

    def tool(self, name, text):
        path = os.path.join(self.tools, name)
        self.write(path, f'#!/bin/sh\n{text}\n'.encode())
        os.chmod(path, stat.S_IRWXU)

    def write(self, path, data):
        with open(path, 'wb') as file:
            file.write(data)

    def read(self, name):
        with open(os.path.join(self.folder, name), 'rb') as file:
            return file.read()

    def collect(self, path=None):
        return self.call(self.document, '300', self.folder, PATH=path or f'{self.tools}:{os.environ["PATH"]}')[:2]

    def call(self, *words, limit=None, **more):
        """The script's status and what it says on both streams; limit is the size in bytes that its files may have."""
        environment = environment_of(self.room, **{'TREE': self.tree, 'PATH': f'{self.tools}:{os.environ["PATH"]}', **more})
        environment = {name: value for name, value in environment.items() if value is not None}
        bound = limit and (lambda: resource.setrlimit(resource.RLIMIT_FSIZE, (limit, limit)))
        ran = subprocess.run([sys.executable, SCRIPT, *words], capture_output=True, text=True, stdin=subprocess.DEVNULL, cwd=self.room,
                             env=environment, timeout=600, preexec_fn=bound)
        return ran.returncode, ran.stdout, ran.stderr

    def asked(self):
        """The calls of mktexpk, without the folders."""
        if not os.path.exists(f'{self.tree}/asked'):
            return []
        with open(f'{self.tree}/asked') as file:
            return [re.sub(r' --destdir \S+', '', line) for line in file.read().splitlines()]

    def supply(self):
        shutil.copy(f'{SAMPLE}/drawn12.tfm', self.tree)
        shutil.copy(f'{SAMPLE}/drawn12.300pk', self.tree)
        shutil.copy(f'{SAMPLE}/drawn12.432pk', f'{self.tree}/made.pk')

    def test_files_are_found_and_made(self):
        self.supply()
        self.assertEqual(self.collect(), (0, f'{self.folder}: 3 files new, 0 there before, 0 missing\n'))
        self.assertEqual(sorted(os.listdir(self.folder)), ['drawn12.300pk', 'drawn12.360pk', 'drawn12.tfm'])
        with open(f'{self.tree}/asked') as file:
            self.assertRegex(file.read(), r'^--bdpi 300 --mag 1\+60/300 --dpi 360 --destdir \S+ drawn12\n$')

    def test_outlines_are_made_by_ps2pk_where_gsftopk_fails(self):
        self.supply()
        shutil.move(f'{self.tools}/mktexpk', f'{self.tools}/made')
        self.tool('mktexpk', 'if [ "$ps_to_pk" = ps2pk ]; then made "$@"; else echo no render.ps >&2; exit 1; fi')
        self.assertEqual(self.collect(), (0, f'{self.folder}: 3 files new, 0 there before, 0 missing\n'))

    def test_what_is_missing_is_said_with_a_command(self):
        status, said = self.collect()
        self.assertEqual(status, 1)
        self.assertIn('missing: drawn12.tfm: kpsewhich drawn12.tfm finds no good one; find its package by: tlmgr search --global --file /drawn12.tfm', said)
        self.assertIn('missing: drawn12.360pk: try: mktexpk --bdpi 300 --mag 1+60/300 --dpi 360 drawn12\n', said)

    def test_without_tex_it_says_so(self):
        os.mkdir(os.path.join(self.room, 'empty'))
        status, said = self.collect(path=os.path.join(self.room, 'empty'))
        self.assertEqual(status, 1)
        self.assertIn('there is no kpsewhich: install TeX', said)
        self.assertIn('there is no mktexpk: install TeX', said)

    def test_a_good_file_stays_and_a_bad_one_is_replaced(self):
        self.supply()
        os.mkdir(self.folder)
        mine = self.pk_of_my_own()
        self.write(os.path.join(self.folder, 'drawn12.300pk'), mine)
        self.write(os.path.join(self.folder, 'drawn12.tfm'), b'cut')
        status, said = self.collect()
        self.assertEqual(status, 0)
        self.assertEqual(self.read('drawn12.300pk'), mine)
        with open(f'{SAMPLE}/drawn12.tfm', 'rb') as file:
            self.assertEqual(self.read('drawn12.tfm'), file.read())
        self.assertIn('drawn12.tfm: the file in the folder is bad (short)', said)

    def test_a_bad_file_is_not_taken(self):
        self.supply()
        self.write(f'{self.tree}/made.pk', self.pk_of_my_own()[:-1])
        status, said = self.collect()
        self.assertEqual(status, 1)
        self.assertFalse(os.path.exists(os.path.join(self.folder, 'drawn12.360pk')))
        self.assertEqual([name for name in os.listdir(self.folder) if name.startswith('.')], [])

    def test_fonts_of_virtual_fonts_are_collected(self):
        self.supply()
        self.write(f'{self.tree}/drawn12.vf', virtual(local(0, b'raw', 1 << 19, 12 << 20)))
        shutil.copy(f'{SAMPLE}/drawn12.tfm', f'{self.tree}/raw.tfm')
        self.assertEqual(self.collect()[0], 0)
        self.assertEqual(sorted(os.listdir(self.folder)), ['drawn12.tfm', 'drawn12.vf', 'raw.150pk', 'raw.180pk', 'raw.tfm'])

    def test_names_that_the_program_never_looks_for(self):
        self.write(self.document, document(b'', definition(0, area=b'dir/') + definition(1, name=b'.x')))
        status, said = self.collect()
        self.assertEqual((status, os.listdir(self.folder)), (1, []))
        self.assertIn("missing: 'dir/drawn12': dvipbm looks for no font of that name", said)

    def test_a_bad_document_is_refused(self):
        self.write(self.document, b'\xf7\x02')
        self.assertEqual(self.collect(), (2, ''))

    def pk_of_my_own(self):
        return bytes([247, 89, 0]) + bytes(16) + b'\xf6\xf5'

    def test_modes_for_every_resolution(self):
        """By a mode of that very resolution where METAFONT has one, else by one that is scaled, which is said."""
        self.supply()
        self.write(self.document, document(b'', definition(0, size=943718)))
        cases = {96: '--mfmode atarins --bdpi 96 --mag 1+19/96 --dpi 115', 1000: '--mfmode lmaster --bdpi 1000 --mag 1+200/1000 --dpi 1200',
                 600: '--bdpi 600 --mag 1+120/600 --dpi 720', 203: '--mfmode ljfour --bdpi 600 --mag 0+244/600 --dpi 244',
                 317: '--mfmode ljfour --bdpi 600 --mag 0+380/600 --dpi 380', 4800: '--mfmode ljfour --bdpi 600 --mag 9+360/600 --dpi 5760'}
        for resolution, wanted in cases.items():
            status, out, said = self.call(self.document, str(resolution), f'{self.folder}{resolution}')
            scaled = f'METAFONT has no mode for {resolution} dots to the inch: fonts are made by ljfour, scaled from 600\n'
            self.assertEqual((status, self.asked()[-1:], scaled in said), (0, [f'{wanted} drawn12'], 'ljfour' in wanted), resolution)
        status, out, said = self.call(self.document, '203', f'{self.folder}mine', MFMODE='mine')
        self.assertEqual((status, self.asked()[-1]), (0, '--mfmode mine --bdpi 203 --mag 1+41/203 --dpi 244 drawn12'))

    @needs('kpsewhich')
    def test_modes_are_those_of_modes_mf(self):
        path = subprocess.run(['kpsewhich', 'modes.mf'], capture_output=True, text=True, stdin=subprocess.DEVNULL).stdout.strip()
        if not path:
            self.skipTest('not installed: modes.mf')
        with open(path, encoding='latin-1') as file:
            text = re.sub('%.*', '', file.read())
        modes = {name: body for name, body in re.findall(r'mode_def\s+(\w+)\s*=(.*?)enddef', text, re.S)}
        square = {name: found[1] for name, body in modes.items() if 'aspect_ratio' not in body
                  and (found := re.search(r'pixels_per_inch\s*,\s*([^)]+?)\s*\)', body))}
        known = sys.modules['font_files']
        named = {**known.GUESSED, **known.MODES, known.BASE: known.SCALED}
        self.assertEqual({name: square[name] for name in named.values()}, {name: str(resolution) for resolution, name in named.items()})
        lacking = {int(dots) for dots in square.values() if dots.isdigit() and int(dots) <= 4800} - set(named)
        self.assertEqual(lacking, {101}, 'resolutions that have a mode, other than that of no device')

    def test_few_dots_to_the_inch(self):
        """Fonts that METAFONT can't draw so coarsely are made of ones in more dots, by a whole factor."""
        self.supply()
        os.remove(f'{self.tree}/drawn12.300pk')
        self.write(self.document, document(b'', definition(0)))
        for resolution, wanted in ((7, '--mag 0+203/600 --dpi 203'), (1, '--mag 0+200/600 --dpi 200')):
            self.assertEqual(self.call(self.document, str(resolution), self.folder)[0], 0)
            self.assertEqual(self.asked()[-1], f'--mfmode ljfour --bdpi 600 {wanted} drawn12')
            data = self.read(f'drawn12.{resolution}pk')
            self.assertGreater(len(list(collect_pk.packets(data))), 10)

    def test_a_raster_in_fewer_dots(self):
        """A glyph of three by five dots, of which a third of each cell of two by two stays, and its reference dot's place."""
        rows = [0b110, 0b100, 0b000, 0b001, 0b001]
        raster = int(''.join(f'{row:03b}' for row in rows).ljust(16, '0'), 2).to_bytes(2, 'big')
        packet = b'\0\1\0' + bytes([4, 3, 5, 1, 4]) + raster
        data = bytes([247, 89, 0]) + number(10 << 20, 4) + b'sums' + number(1000, 4) * 2 + bytes([14 << 4, len(packet), 65]) + packet + b'\xf5'
        made = collect_pk.reduced(data, 2)
        collect_pk.judge_pk(made)
        [(flag, code, found)] = collect_pk.packets(made)
        width, across, column, line, wide, lines = collect_pk.glyph(flag, found)
        # Columns -1 to 1 and rows 4 to 0 of the grid become columns -1 and 0, rows 2 to 0. Black: (-1, 4) (0, 4) (-1, 3) (1, 1) (1, 0).
        self.assertEqual((code, width, across, column, line, wide, lines), (65, b'\0\1\0', 2, 0, 0, 1, [1]))
        self.assertEqual((collect_pk.checksum(made), made[11:15]), (b'sums', number(500, 4)))

    def test_packed_rasters_are_read(self):
        """Runs with a row that comes twice more, and in the longer forms of a count."""
        # dyn_f 4, black first: 2, then white 1 with repeat count 2, then black 3 ..; a row of three dots.
        runs = [2, 14, 2, 1, 3, 3]
        packed = bytes(runs[at] << 4 | runs[at + 1] for at in range(0, len(runs), 2))
        self.assertEqual(collect_pk.rows_of(4 << 4 | 8, 3, 5, packed), [0b110] * 3 + [0b111, 0b000])
        # dyn_f 1: a count of 20 is (20 - 1 - 1) in two halves, 3 and 2; of 300, above (13 - 1) * 16 + 1, two zeros stand before 07b.
        self.assertEqual(collect_pk.rows_of(1 << 4 | 8, 20, 2, bytes([0x32, 0x32])), [(1 << 20) - 1, 0])
        self.assertEqual(collect_pk.rows_of(1 << 4 | 8, 300, 1, bytes([0x07, 0xA0])), [(1 << 300) - 1])

    def test_what_was_made_is_kept_for_the_next_folder(self):
        self.supply()
        self.assertEqual(self.call(self.document, '300', self.folder)[:2], (0, f'{self.folder}: 3 files new, 0 there before, 0 missing\n'))
        self.assertEqual(self.call(self.document, '300', f'{self.folder}2')[:2], (0, f'{self.folder}2: 3 files new, 0 there before, 0 missing\n'))
        self.assertEqual(len(self.asked()), 1)
        with open(f'{self.room}/cache/dvipbm/pk/cx/drawn12.360pk', 'rb') as one, open(f'{self.folder}2/drawn12.360pk', 'rb') as other:
            self.assertEqual(one.read(), other.read())
        self.call(self.document, '300', f'{self.folder}3', XDG_CACHE_HOME='', HOME=f'{self.room}/house')
        self.assertTrue(os.path.exists(f'{self.room}/house/.cache/dvipbm/pk/cx/drawn12.360pk'))
        self.assertEqual(len(self.asked()), 2)

    def test_a_cache_that_is_bad_or_other_or_none(self):
        self.supply()
        kept = f'{self.room}/cache/dvipbm/pk/cx/drawn12.360pk'
        os.makedirs(os.path.dirname(kept))
        with open(f'{SAMPLE}/drawn12.432pk', 'rb') as file:
            made = file.read()
        self.write(f'{self.tree}/made.pk', made[:7] + bytes(4) + made[11:])
        for bad in (b'', made[:-9], made[:7] + b'\1\2\3\4' + made[11:]):
            self.write(kept, bad)
            with open(f'{SAMPLE}/drawn12.tfm', 'rb') as file:
                metric = file.read()
            self.write(f'{self.tree}/drawn12.tfm', metric[:24 + 0] + b'\5\6\7\x08' + metric[28:])
            count = len(self.asked())
            shutil.rmtree(self.folder, ignore_errors=True)
            self.assertEqual(self.call(self.document, '300', self.folder)[0], 0, bad[:9])
            self.assertEqual(len(self.asked()), count + 1, bad[:12])
        self.write(f'{self.room}/file', b'')
        for cache in (f'{self.room}/file', '/proc', 'relative', ''):
            shutil.rmtree(self.folder)
            status, _, said = self.call(self.document, '300', self.folder, XDG_CACHE_HOME=cache, HOME=None)
            self.assertEqual((status, 'Traceback' in said), (0, False), f'{cache}: {said}')

    def test_several_are_made_at_once_and_each_is_shown(self):
        if len(os.sched_getaffinity(0)) < 2:
            self.skipTest('one core')
        self.supply()
        self.write(self.document, document(b'', definition(0, size=943718) + definition(1, size=1132462)))
        shutil.move(f'{self.tools}/mktexpk', f'{self.tools}/made')
        # Each waits until the other is at work too.
        self.tool('mktexpk', 'touch "$TREE/at.$$"; n=0; while [ "$(ls "$TREE" | grep -c "^at\\.")" -lt 2 ]; do n=$((n + 1)); '
                  '[ $n -lt 600 ] || exit 1; sleep 0.1; done; exec made "$@"')
        status, _, said = self.call(self.document, '300', self.folder)
        self.assertEqual((status, sorted(said.split('\n'))[1:2]), (0, ['1 of 2: ' + said.split('1 of 2: ')[1].split('\n')[0]]), said)
        self.assertEqual(sorted(line.split(': ')[-1] for line in said.split('\n') if ' of 2: ' in line), ['drawn12.360pk', 'drawn12.432pk'])
        self.assertIn('making 2 fonts, 2 at a time\n', said)

    def test_many_documents_in_one_call(self):
        self.supply()
        other = os.path.join(self.room, 'b.dvi')
        self.write(other, document(b'', definition(5, size=1132462)))
        bad, absent = os.path.join(self.room, 'bad.dvi'), os.path.join(self.room, 'absent.dvi')
        self.write(bad, b'%PDF-1.5')
        shutil.move(f'{self.tools}/kpsewhich', f'{self.tools}/finds')
        self.tool('kpsewhich', 'echo call >>"$TREE/looked"; exec finds "$@"')
        status, out, said = self.call(self.document, other, '300', self.folder)
        self.assertEqual((status, out), (0, f'{self.folder}: 4 files new, 0 there before, 0 missing\n'))
        with open(f'{self.tree}/looked') as file:
            self.assertLessEqual(len(file.readlines()), 2)
        status, out, said = self.call(bad, self.document, absent, other, '300', self.folder)
        self.assertEqual((status, out), (1, f'{self.folder}: 0 files new, 4 there before, 0 missing\n'))
        self.assertEqual(said, f'{bad}: a PDF file, not a DVI file; run tex or latex first, not pdftex or pdflatex\n'
                               f'{absent}: No such file or directory\n')

    def test_every_fault_has_one_line(self):
        self.supply()
        files = {'text': (b'\\documentclass{article}\n', 2, 'not a DVI file; run tex or latex first'), 'none': (b'', 2, 'the file is empty; run tex or latex first'),
                 'pdf': (b'%PDF-1.5', 2, 'a PDF file, not a DVI file; run tex or latex first, not pdftex or pdflatex'),
                 'ps': (b'%!PS', 2, 'a PostScript file, not a DVI file; run tex or latex first'), 'cut': (document(b'')[:30], 2, 'truncated at 30')}
        for name, (data, status, line) in files.items():
            path = os.path.join(self.room, name)
            self.write(path, data)
            self.assertEqual(self.call(path, '300', self.folder), (status, '', f'{path}: {line}\n'))
        absent = os.path.join(self.room, 'absent')
        self.assertEqual(self.call(absent, '300', self.folder), (66, '', f'{absent}: No such file or directory\n'))
        self.assertFalse(os.path.exists(self.folder))
        for asked in ('0', '4801', '-3', '300.5', 'fine', '', '03', '99999'):
            self.assertEqual(self.call(self.document, asked, self.folder),
                             (64, '', f'collect-fonts: {asked} is no resolution: dvipbm takes 1 to 4800 dots to the inch\n'))
        self.assertEqual(self.call(self.document, '300')[:2], (64, ''))
        for folder in (f'{self.document}/fonts', '/proc/fonts'):
            status, _, said = self.call(self.document, '300', folder)
            self.assertEqual((status, said.count('\n'), said.startswith(f'collect-fonts: {folder}: ')), (73, 1, True), said)

    def test_a_full_disk_has_one_line(self):
        self.supply()
        status, out, said = self.call(self.document, '300', self.folder, limit=400)
        self.assertEqual((status, said.count('\n'), said.startswith('collect-fonts: ')), (73, 1, True), said)
        self.assertEqual(os.listdir(self.folder), [])


@needs_program
@unittest.skipUnless(shutil.which('tex') and shutil.which('mktexpk') and shutil.which('mf'), 'tex, mktexpk or mf is not installed')
class WithTeX(unittest.TestCase):
    def test_every_resolution(self):
        """One font, from the least resolution to the greatest, drawn by the program on a small sheet: some dots are black."""
        with tempfile.TemporaryDirectory() as room:
            subprocess.run(['tex', '-interaction=batchmode', '-jobname=a', r'\nopagenumbers\noindent W\bye'], cwd=room, check=True,
                           capture_output=True, env=environment_of(room))
            with open(f'{room}/a.dvi', 'rb') as file:
                data = file.read()
            for resolution in (1, 7, 30, 72, 96, 203, 317, 4800):
                ran = subprocess.run([SCRIPT, 'a.dvi', str(resolution), f'fonts{resolution}'], cwd=room, capture_output=True, text=True,
                                     env=environment_of(room), timeout=600)
                self.assertEqual(ran.returncode, 0, f'{resolution}: {ran.stdout}{ran.stderr}')
                side = str(2 + resolution // 2)
                status, pages, notes = run(data, f'{room}/fonts{resolution}', options=['--res', str(resolution), '--width', side, '--height', side, '--left=1', '--top=1'])
                self.assertEqual((status, notes, any(pages.split(b'\n', 2)[2])), (0, '', True), resolution)

    def test_a_document_of_tex_is_drawn_with_what_was_collected(self):
        with tempfile.TemporaryDirectory() as room:
            text = r'\font\big=cmbx10 scaled\magstep2 \big A title \rm and $\sum_{n=1}^\infty x_n^2$, {\it slanted} text.\bye'
            environment = environment_of(room)
            subprocess.run(['tex', '-interaction=batchmode', '-jobname=a', text], cwd=room, check=True, capture_output=True, env=environment)
            subprocess.run([SCRIPT, 'a.dvi', '300', 'fonts'], cwd=room, check=True, capture_output=True, env=environment)
            with open(f'{room}/a.dvi', 'rb') as file:
                status, pages, notes = run(file.read(), f'{room}/fonts')
            self.assertEqual((status, pages.count(b'P4\n2550 3300\n'), notes), (0, 1, ''))


if __name__ == '__main__':
    unittest.main()
