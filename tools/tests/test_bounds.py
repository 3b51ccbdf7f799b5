"""Runs where memory is short: under a bound on the address space, or on the stack, each run ends by itself, with 0 or with 9."""
import concurrent.futures, itertools, os, resource, subprocess, tempfile, unittest
from common import PROGRAM, SAMPLE, SPOOL, needs_program, needs_spool

KIB = 1024
WORKERS = ('1', '4', '32')

# With less than this the system may not even begin a program that uses the C library.
LEAST_SPACE, LEAST_STACK = 2048 * KIB, 128 * KIB


def spaces():
    """Bounds on the address space: in steps of 20 KiB where they are small, and of half a hundredth where they are large."""
    bound = LEAST_SPACE
    while True:
        yield bound
        bound += max(20 * KIB, bound // (200 * KIB) * KIB)


def stacks():
    """Bounds on the stack: in steps of 4 KiB where they are small, up to what systems allow."""
    return [*range(LEAST_STACK, 256 * KIB, 4 * KIB), *range(256 * KIB, KIB * KIB, 64 * KIB), *(mib * KIB * KIB for mib in (1, 2, 4, 8))]


@needs_program
class Bounds(unittest.TestCase):
    def setUp(self):
        with open(f'{SAMPLE}/sample.dvi', 'rb') as file:
            self.document = file.read()

    def ended(self, command, kind, bound):
        """The status of a run under a bound. With 127 the system's loader says that it can't load the C library, and no run begins: None."""
        with tempfile.TemporaryFile() as document:
            document.write(self.document)
            document.seek(0)
            status = subprocess.run(command, stdin=document, stdout=subprocess.DEVNULL, stderr=subprocess.DEVNULL, timeout=60,
                                    env={**os.environ, 'DVIPBM_FONTS': SAMPLE}, preexec_fn=lambda: resource.setrlimit(kind, (bound, bound))).returncode
        return None if status == 127 else status

    def statuses(self, command, kind, bounds):
        """What runs end with, by the first bound of each, up to the first bound of which no run ends with anything but 0."""
        found = {}
        with concurrent.futures.ThreadPoolExecutor(os.cpu_count()) as pool:
            while True:
                some = list(itertools.islice(bounds, 64))
                ends = list(pool.map(lambda bound: self.ended(command, kind, bound), some))
                for bound, end in zip(some, ends):
                    found.setdefault(end, bound // KIB)
                if not some or ends == [0] * len(ends):
                    return found

    def test_the_address_space(self):
        for words in ([], ['--sample', '4', '--summary', '--trace']):
            for workers in WORKERS:
                with self.subTest(' '.join([*words, workers])):
                    found = self.statuses([PROGRAM, *words, '--workers', workers], resource.RLIMIT_AS, spaces())
                    self.assertEqual({end: bound for end, bound in found.items() if end not in (None, 0, 9)}, {})
                    self.assertLessEqual({0, 9}, set(found))

    def test_the_stack(self):
        for words in ([], ['--sample', '4', '--summary', '--trace']):
            for workers in WORKERS:
                with self.subTest(' '.join([*words, workers])):
                    found = self.statuses([PROGRAM, *words, '--workers', workers], resource.RLIMIT_STACK, iter(stacks()))
                    self.assertEqual({end: bound for end, bound in found.items() if end not in (0, 9)}, {})
                    self.assertIn(0, found)


@needs_spool
class Spool(Bounds):
    """The same of dvispool with two documents. A file for which there is no memory can't be opened: 6 and 7."""

    def judge(self, kind, bounds):
        for workers in WORKERS:
            with self.subTest(workers):
                command = [SPOOL, '300', workers, '16', *2 * [f'{SAMPLE}/sample.dvi', os.devnull]]
                found = self.statuses(command, kind, bounds())
                self.assertEqual({end: bound for end, bound in found.items() if end not in (None, 0, 6, 7, 9)}, {})
                self.assertIn(0, found)

    def test_the_address_space(self):
        self.judge(resource.RLIMIT_AS, spaces)

    def test_the_stack(self):
        self.judge(resource.RLIMIT_STACK, lambda: iter(stacks()))


if __name__ == '__main__':
    unittest.main()
