"""The program under attack: each allocation of a run fails once, and each byte of its files is cut off or flipped."""
import concurrent.futures, multiprocessing, os, re, shutil, signal, subprocess, tempfile, unittest

from common import PROGRAM, SAMPLE, TOP, definition, document, needs, needs_program

SHEET = ['--width', '1200', '--height', '700', '--left', '10', '--top', '60']
SECONDS = 20  # a run that takes longer hangs
FAULT = re.compile(rb'dvipbm: (document: [ -~]+ at \d+|page \d+ at \d+: [ -~]+)\n')
CORES = len(os.sched_getaffinity(0)) if hasattr(os, 'sched_getaffinity') else os.cpu_count() or 1


def file_of(name):
    with open(f'{SAMPLE}/{name}', 'rb') as file:
        return file.read()


FONTS = sorted(name for name in os.listdir(SAMPLE) if name.endswith(('.tfm', 'pk')))
SAMPLE_FILES = {name: file_of(name) for name in FONTS}
SAMPLE_PAGE = file_of('sample.dvi')

# Fonts with the character A alone: dot and bar of 2 by 2 and 3 by 4 pixels, and duo, whose A is that of both.
PK = bytes.fromhex('f7590000a0000000000000000426ae000426ae')
LOCAL = bytes.fromhex('000000000010000000f6ae7d0003')


def metric(width):
    counts = bytes.fromhex('000e0002004100410002000100010001') + bytes(8)
    return counts + bytes.fromhex('0000000000a000000100000000000000') + bytes.fromhex(width) + bytes(12)


SMALL_FILES = {
    'dot.tfm': metric('00010000'), 'bar.tfm': metric('00018000'), 'duo.tfm': metric('00028000'),
    'dot.300pk': PK + bytes.fromhex('e009410100000402020001f0f5'),
    'bar.300pk': PK + bytes.fromhex('a80b410180000603040003e21140f5f6f6'),
    'duo.vf': bytes.fromhex('f7ca000000000000a00000') + b'\xf3\0' + LOCAL + b'dot\xf3\1' + LOCAL + b'bar' + bytes.fromhex('034102800041ac41f8f8f8'),
}


def small(bodies, name):
    """A document at half a dot a unit, whose font 0 is 128 units large."""
    return document(bodies, definition(0, name, 128, 128), num=1270, den=3)


# What is drawn while memory is wanting: a document, its fonts, how it ends otherwise, and options.
STARVED = {
    'the sample': (SAMPLE_PAGE, SAMPLE_FILES, 0, ()),
    'a virtual font': (small([b'\xabAA', b'\xabA', b''], b'duo'), SMALL_FILES, 0, ()),
    'a fault': (small([b'\xabA', b'\xabB', b'\xabA'], b'dot'), SMALL_FILES, 3, ()),
    'what pages lack': (small([b'\xabAB', b'\xabBCB', b'\xabCB'], b'dot'), SMALL_FILES, 0, ('--tolerant',)),
}
OUT_OF_MEMORY = b'dvipbm: out of memory\n'


class Runs:
    """Runs of the program in a folder of its own, which holds the fonts."""

    def __init__(self, fonts):
        self.room = tempfile.mkdtemp()
        self.streams = [os.memfd_create(name) for name in ('input', 'output', 'notes', 'starved')]
        for name, data in fonts.items():
            self.lay(name, data)

    def __enter__(self):
        return self

    def __exit__(self, *_):
        shutil.rmtree(self.room)
        for stream in self.streams:
            os.close(stream)

    def lay(self, name, data):
        with open(f'{self.room}/{name}', 'wb') as file:
            file.write(data)

    def run(self, data, *words, **environment):
        """The status, or the signal below 0, and what was written, noted and said of starved allocations."""
        for stream in self.streams:
            os.ftruncate(stream, 0)
            os.lseek(stream, 0, os.SEEK_SET)
        os.pwrite(self.streams[0], data, 0)
        process = os.posix_spawn(PROGRAM, [PROGRAM, *SHEET, *words], {'DVIPBM_FONTS': self.room, **environment},
                                 file_actions=[(os.POSIX_SPAWN_DUP2, stream, to) for to, stream in enumerate(self.streams)])
        signal.signal(signal.SIGALRM, lambda *_: os.kill(process, signal.SIGKILL))
        signal.alarm(SECONDS)
        _, ended = os.waitpid(process, 0)
        signal.alarm(0)
        return (os.waitstatus_to_exitcode(ended), *(os.pread(stream, os.fstat(stream).st_size, 0) for stream in self.streams[1:]))


def are_whole(pages):
    """Whether bytes are bitmaps, each whole."""
    at = 0
    while at < len(pages):
        head = re.compile(rb'P4\n(\d+) (\d+)\n').match(pages, at)
        if not head:
            return False
        at = head.end() + (int(head[1]) + 7) // 8 * int(head[2])
    return at == len(pages)


def wrong_starved(preloaded, name, workers, first):
    """Lets each allocation of a part of them find no memory, and gives what is wrong and how many were reached."""
    data, fonts, status, options = STARVED[name]
    wrong, reached = [], 0
    words = ('--workers', str(workers), *options)
    with Runs(fonts) as runs:
        good = runs.run(data, *words)
        if good[0] != status or not are_whole(good[1]):
            return [f'{name}: {good[0]} {good[2]}'], 0
        for at in range(first + 1, 1_000_000, CORES):
            ended, pages, notes, starved = runs.run(data, *words, LD_PRELOAD=preloaded, STARVE_AT=str(at))
            # Of the notes there are at most the lines of what the pages lack that were written, and the last line.
            lines = notes.removesuffix(OUT_OF_MEMORY)
            noted = good[2].startswith(lines) and all(b': tolerated ' in line for line in lines.splitlines())
            refused = ended == 9 and noted and are_whole(pages) and good[1].startswith(pages)
            if not refused and (ended, pages, notes) != good[:3]:
                wrong.append(f'{name}, {workers} workers, allocation {at}: {ended} {notes}')
            if not starved:
                break
            reached += 1
    return wrong, reached


def wrong_changed(name, first):
    """Cuts a file at each byte of a part of them, and flips it; gives what is wrong and how many runs drew a page."""
    wrong, drawn = [], 0
    whole = SAMPLE_FILES.get(name, SAMPLE_PAGE)
    with Runs(SAMPLE_FILES) as runs:
        for at in range(first, len(whole), CORES):
            for what, data in ('cut', whole[:at]), ('flipped', whole[:at] + bytes([whole[at] ^ 0xff]) + whole[at + 1:]):
                if name in SAMPLE_FILES:
                    runs.lay(name, data)
                page = SAMPLE_PAGE if name in SAMPLE_FILES else data
                status, pages, notes, _ = runs.run(page, '--workers', '2')
                if status == 0:
                    is_right = are_whole(pages) and runs.run(page, '--workers', '1') == (0, pages, b'', b'')
                    drawn += 1
                else:
                    is_right = status in (2, 3, 4) and pages == b'' and FAULT.fullmatch(notes)
                if not is_right:
                    wrong.append(f'{name}, {what} at {at}: {status} {notes}')
    return wrong, drawn


def all_of(pool, call, *words):
    """What the parts of a job found, done side by side."""
    parts = [pool.submit(call, *words, first) for first in range(CORES)]
    found = [part.result() for part in parts]
    return sum((wrong for wrong, _ in found), []), sum(count for _, count in found)


@needs_program
class Hostile(unittest.TestCase):
    def setUp(self):
        self.pool = concurrent.futures.ProcessPoolExecutor(CORES, multiprocessing.get_context('fork'))
        self.addCleanup(self.pool.shutdown)

    @needs('gcc')
    def test_each_allocation_fails_once(self):
        with tempfile.TemporaryDirectory() as room:
            preloaded = f'{room}/starve.so'
            subprocess.run(['gcc', '-shared', '-fPIC', '-O1', '-o', preloaded, f'{TOP}/tools/tests/starve.c'], check=True)
            for name in STARVED:
                for workers in 1, 2:
                    with self.subTest(name, workers=workers):
                        wrong, reached = all_of(self.pool, wrong_starved, preloaded, name, workers)
                        self.assertEqual(wrong, [])
                        self.assertGreater(reached, 40)

    def test_each_byte_is_cut_off_and_flipped(self):
        for name in [*FONTS, 'sample.dvi']:
            with self.subTest(name):
                wrong, drawn = all_of(self.pool, wrong_changed, name)
                self.assertEqual(wrong, [])
                self.assertGreater(drawn, 0)


if __name__ == '__main__':
    unittest.main()
