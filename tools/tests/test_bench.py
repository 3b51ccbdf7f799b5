"""bench/pages tells a program's own memory and not that of the script, and counts whole pages; bench/divisions finds what divides; bench/room
says whether memory falls with the room of the cache; bench/spool whether one run takes less than sixteen.
"""
import os, re, subprocess, sys, tempfile, unittest

from common import TOP

LARGE = '''#!{python}
import sys
held = b'x' * (90 << 20)
for _ in range(3):
    sys.stdout.buffer.write(b'P4\\n2550 3300\\n' + bytes(1052700))
sys.stdout.buffer.flush()
'''


class Pages(unittest.TestCase):
    def measured(self, text):
        with tempfile.TemporaryDirectory() as room:
            path = os.path.join(room, 'program')
            with open(path, 'w') as file:
                file.write(text)
            os.chmod(path, 0o755)
            # Without valgrind, which would count the instructions of a shell or of Python here.
            environment = dict(os.environ, PATH='/nowhere')
            ran = subprocess.run([sys.executable, f'{TOP}/bench/pages', path, os.devnull], capture_output=True, text=True, env=environment)
        found = re.match(r'status (\d+), (\d+) pages in [\d.]+ s: [\d.]+ a second, (?:at most ([\d.]+) MiB|memory unknown)', ran.stdout)
        self.assertTrue(found, ran.stdout + ran.stderr)
        return int(found[1]), int(found[2]), float(found[3] or 'nan')

    @unittest.skipUnless(os.path.exists('/proc/self/status'), 'the system has no /proc')
    def test_the_memory_is_the_program_s_own(self):
        status, pages, memory = self.measured(LARGE.format(python=sys.executable))
        self.assertEqual((status, pages), (0, 3))
        self.assertTrue(90 <= memory <= 130, memory)

    def test_a_shell_that_fails_has_no_page(self):
        self.assertEqual(self.measured('#!/bin/sh\nprintf "P4\\n8 2\\nx"\nexit 7\n')[:2], (7, 0))


# What a disassembly says of a loop that calls a function of packed_rows, which calls another one that divides, and of one for rules.
CODE = '''#!/bin/sh
cat <<'END'
0000000000000010 <page_draw::flats::draw_flats>:
      10:\tcall   20 <packed_rows::strips::stamp>
      15:\tcall   30 <drift_rules::marks::rule_at>
      1a:\tret
0000000000000020 <packed_rows::strips::stamp>:
      20:\tjmp    40 <packed_rows::pieces::stamp_part>
0000000000000030 <drift_rules::marks::rule_at>:
      30:\tdiv    %ecx
0000000000000040 <packed_rows::pieces::stamp_part>:
      40:\t{instruction}
      43:\tret
END
'''


class Divisions(unittest.TestCase):
    def looked(self, instruction):
        with tempfile.TemporaryDirectory() as room:
            path = os.path.join(room, 'objdump')
            with open(path, 'w') as file:
                file.write(CODE.format(instruction=instruction))
            os.chmod(path, 0o755)
            environment = dict(os.environ, PATH=f'{room}:{os.environ["PATH"]}')
            ran = subprocess.run([sys.executable, f'{TOP}/bench/divisions', 'program'], capture_output=True, text=True, env=environment)
        return ran.returncode, ran.stdout.splitlines()[-1:]

    def test_what_divides_in_the_loop_is_found(self):
        last = 'packed_rows::pieces::stamp_part: 2 instructions, {} divide, {} calls of a wide division'.format
        found = [self.looked(instruction) for instruction in ('mul    %rcx', 'div    %rcx', 'call   50 <__udivti3>')]
        self.assertEqual(found, [(0, [last(0, 0)]), (1, [last(1, 0)]), (1, [last(0, 1)])])


# A program that keeps so much of 8 MiB of fonts as it has room for, on top of 16 MiB, or that much of what it has no room for.
ROOMY = '''#!{python}
import sys
room = min(int(sys.argv[sys.argv.index('--room') + 1]), 8 << 20)
held = b'x' * ((16 << 20) + {held})
evicted = (8 << 20) - room >> 15
for _ in range(3):
    sys.stdout.buffer.write(b'P4\\n2550 3300\\n' + bytes(1052700))
sys.stdout.buffer.flush()
print('pages 3', f'evictions {{evicted}}', f'loads {{768 + evicted}}', sep='\\n', file=sys.stderr)
sys.exit({status})
'''


@unittest.skipUnless(os.path.exists('/proc/self/status'), 'the system has no /proc')
class Room(unittest.TestCase):
    def measured(self, held, status=0):
        with tempfile.TemporaryDirectory() as room:
            path = os.path.join(room, 'program')
            with open(path, 'w') as file:
                file.write(ROOMY.format(python=sys.executable, held=held, status=status))
            os.chmod(path, 0o755)
            ran = subprocess.run([sys.executable, f'{TOP}/bench/room', path, os.devnull, room], capture_output=True, text=True)
        return ran

    def test_memory_that_falls_with_the_room(self):
        ran = self.measured('room')
        lines = ran.stdout.splitlines()
        rooms = [(int(size.replace(',', '')), int(evicted)) for size, evicted in re.findall(r'^ *([\d,]+) KiB .* (\d+)  [\d.]+ s$', ran.stdout, re.M)]
        self.assertEqual((ran.returncode, lines[-1:]), (0, ['the memory falls with the room; one text']), ran.stdout + ran.stderr)
        self.assertEqual(rooms, [(32 << at, max(0, 256 - (1 << at))) for at in range(10)])

    def test_memory_that_does_not(self):
        ran = self.measured('(8 << 20) - room')
        self.assertEqual((ran.returncode, ran.stdout.splitlines()[-1:]), (1, ['the memory does not fall with the room; one text']), ran.stdout)

    def test_a_run_that_fails(self):
        ran = self.measured('room', 4)
        self.assertEqual((ran.returncode, 'status 4' in ran.stderr), (1, True), ran.stderr)


class Spool(unittest.TestCase):
    """Over programs that sleep: one for each document, the other once for all."""

    def measured(self, each, once, status=0):
        with tempfile.TemporaryDirectory() as room:
            lines = ''.join(f'job {job} status 0\\n' for job in range(1, 16)) + f'job 16 status {status}\\n'
            for name, text in (('dvipbm', f'cat >/dev/null; sleep {each}'), ('dvispool', f'sleep {once}; printf "{lines}looks 1\\nhits 0\\nloads 3\\n" >&2; exit {status}')):
                with open(f'{room}/{name}', 'w') as file:
                    file.write(f'#!/bin/sh\n{text}\n')
                os.chmod(f'{room}/{name}', 0o755)
            return subprocess.run([sys.executable, f'{TOP}/bench/spool', f'{room}/dvipbm', f'{room}/dvispool', os.devnull, room, '1'], capture_output=True, text=True)

    def test_the_ratio_decides(self):
        for each, once, status in ((0.05, 0.1, 0), (0, 3, 1)):
            ran = self.measured(each, once)
            self.assertEqual((ran.returncode, ran.stderr, len(ran.stdout.splitlines())), (status, '', 2), ran.stdout)
            self.assertRegex(ran.stdout, r'\A1 worker: [\d.]+ s, 16 runs one after another [\d.]+ s: [\d.]+ of the time \(limit 0\.7\); processor')

    def test_a_document_that_fails(self):
        ran = self.measured(0, 0, 4)
        self.assertEqual((ran.returncode, 'job 16 status 4' in ran.stderr), (1, True), ran.stderr)


if __name__ == '__main__':
    unittest.main()
