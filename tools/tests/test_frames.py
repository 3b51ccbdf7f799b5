"""The stack that the programs need: no function of theirs has a frame of more than 16 KiB."""
import re, subprocess, unittest
from common import PROGRAM, SPOOL, needs, needs_program, needs_spool

MOST = 16384

# A function's first line, and what moves the stack's pointer down: at once, or down to where a loop ends that takes one page of it after another.
FUNCTION = re.compile(r'^[0-9a-f]+ <(.+)>:$')
MOVED = re.compile(r'\b(?:sub +\$(0x[0-9a-f]+),%rsp|lea +-(0x[0-9a-f]+)\(%rsp\),%r(?:11|sp))$')


def frames_of(code):
    """How many bytes each function takes of the stack, by its disassembled code: all together, where it takes them in several steps."""
    frames, name = {}, None
    for line in code.splitlines():
        begun = FUNCTION.match(line)
        if begun:
            name = begun[1]
        else:
            moved = MOVED.search(line)
            if moved:
                frames[name] = frames.get(name, 0) + int(moved[1] or moved[2], 16)
    return frames


@needs('objdump')
class Frames(unittest.TestCase):
    @needs_program
    def test_no_frame_is_large(self):
        self.judge(PROGRAM)

    @needs_spool
    def test_none_of_the_spool_is(self):
        self.judge(SPOOL)

    def judge(self, program):
        code = subprocess.run(['objdump', '-d', '--no-show-raw-insn', program], capture_output=True, text=True, check=True).stdout
        if 'x86-64' not in code:
            self.skipTest('the program is of another processor')
        frames = frames_of(code)
        self.assertGreater(len(frames), 50)
        self.assertEqual({name: size for name, size in frames.items() if size > MOST}, {})


class Disassembly(unittest.TestCase):
    def test_frames_are_read(self):
        code = '\n'.join(['0000000000001000 <one>:', '    1000:\tsub    $0x28,%rsp', '    1004:\tret', '0000000000001010 <two>:', '    1010:\tpush   %rbp',
                          '    1011:\tlea    -0x20000(%rsp),%r11', '    1019:\tsub    $0x1000,%rsp', '    1020:\tmovq   $0x0,(%rsp)', '    1030:\tsub    $0x18,%rsp',
                          '0000000000002000 <three>:', '    2000:\tret'])
        self.assertEqual(frames_of(code), {'one': 0x28, 'two': 0x20000 + 0x1000 + 0x18})


if __name__ == '__main__':
    unittest.main()
