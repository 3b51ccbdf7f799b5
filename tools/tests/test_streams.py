"""Real streams and files that take or give their bytes in pieces, are interrupted, or fail after the first piece: a library before the C library's has the program's reads and writes."""
import os, subprocess, tempfile, unittest
from common import PROGRAM, SAMPLE, needs, needs_program, run

PIECE = 1000

SHIM = r'''
#define _GNU_SOURCE
#include <dlfcn.h>
#include <errno.h>
#include <stdio.h>
#include <stdlib.h>
#include <string.h>
#include <unistd.h>

static size_t piece(size_t size)
{
    return size < PIECE ? size : PIECE;
}

/* Whether the file that the environment names is read. */
static int is_chosen(int fd)
{
    const char *name = getenv("FAILS_AFTER_THE_FIRST_PIECE");
    char link[64], path[4096];
    if (!name || snprintf(link, sizeof link, "/proc/self/fd/%d", fd) < 0)
        return 0;
    ssize_t length = readlink(link, path, sizeof path);
    size_t wanted = strlen(name);
    return length >= (ssize_t)wanted && !memcmp(path + length - wanted, name, wanted);
}

/* Every other call is interrupted where the environment says so, from the first on. */
static int is_interrupted(void)
{
    static int calls;
    if (!getenv("INTERRUPTS_CALLS") || calls++ % 2)
        return 0;
    errno = EINTR;
    return 1;
}

ssize_t read(int fd, void *bytes, size_t size)
{
    static int pieces;
    ssize_t (*next)(int, void *, size_t) = (ssize_t (*)(int, void *, size_t))dlsym(RTLD_NEXT, "read");
    if (is_interrupted())
        return -1;
    if (!is_chosen(fd))
        return next(fd, bytes, size);
    if (pieces++) {
        errno = getenv("AS_IF_THERE_WERE_NO_FILE") ? ENOENT : EIO;
        return -1;
    }
    return next(fd, bytes, piece(size));
}

ssize_t write(int fd, const void *bytes, size_t size)
{
    ssize_t (*next)(int, const void *, size_t) = (ssize_t (*)(int, const void *, size_t))dlsym(RTLD_NEXT, "write");
    if (is_interrupted())
        return -1;
    return next(fd, bytes, getenv("WRITES_IN_PIECES") ? piece(size) : size);
}
'''


@needs_program
@needs('cc')
class Streams(unittest.TestCase):
    @classmethod
    def setUpClass(cls):
        cls.room = tempfile.TemporaryDirectory()
        cls.addClassCleanup(cls.room.cleanup)
        cls.shim = f'{cls.room.name}/shim.so'
        subprocess.run(['cc', f'-DPIECE={PIECE}', '-shared', '-fPIC', '-o', cls.shim, '-x', 'c', '-', '-ldl'], input=SHIM, text=True, check=True)
        with open(f'{SAMPLE}/sample.dvi', 'rb') as file:
            cls.whole = run(file.read())

    def ended(self, **words):
        """Runs the program on the sample's document, with these words in the environment of the library."""
        with open(f'{SAMPLE}/sample.dvi', 'rb') as file:
            ran = subprocess.run([PROGRAM], stdin=file, capture_output=True, timeout=60, env={**os.environ, 'DVIPBM_FONTS': SAMPLE, 'LD_PRELOAD': self.shim, **words})
        return ran.returncode, ran.stdout, ran.stderr.decode('ascii', 'replace')

    def test_the_run_without_them(self):
        self.assertEqual((self.whole[0], self.whole[2]), (0, ''))
        self.assertGreater(len(self.whole[1]), 3 * PIECE)
        self.assertEqual(self.ended(), self.whole)

    def test_writes_that_are_short_and_go_on(self):
        self.assertEqual(self.ended(WRITES_IN_PIECES='1'), self.whole)

    def test_calls_that_are_interrupted(self):
        self.assertEqual(self.ended(INTERRUPTS_CALLS='1', WRITES_IN_PIECES='1'), self.whole)

    def test_an_input_that_fails_after_its_first_piece(self):
        self.assertGreater(os.path.getsize(f'{SAMPLE}/sample.dvi'), PIECE)
        self.assertEqual(self.ended(FAILS_AFTER_THE_FIRST_PIECE='sample.dvi'), (6, b'', 'dvipbm: input failed\n'))

    def test_a_font_file_that_fails_after_its_first_piece(self):
        for name in ('drawn12.tfm', 'drawn12.300pk'):
            with self.subTest(name):
                self.assertEqual(self.ended(FAILS_AFTER_THE_FIRST_PIECE=name), (5, b'', 'dvipbm: page 1: font source failed\n'))
                self.assertEqual(self.ended(FAILS_AFTER_THE_FIRST_PIECE=name, AS_IF_THERE_WERE_NO_FILE='1'), (5, b'', 'dvipbm: page 1: font source failed\n'))


if __name__ == '__main__':
    unittest.main()
