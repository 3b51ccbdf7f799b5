"""Reading of GF files for the scripts."""
from dvi_files import Reader, Refused

# How many bytes of fields each command has that may stand in a character, and between characters.
HEADS, ANYWHERE = {67: 24, 68: 5}, {243: 4, 244: 0}
BETWEEN = {**HEADS, **ANYWHERE}
INSIDE = {**{opcode: 0 for opcode in [*range(64), 69, 70, *range(74, 239)]}, 64: 1, 65: 2, 66: 3, 71: 1, 72: 2, 73: 3, **ANYWHERE}


def judge_gf(data):
    """Refuses what isn't a whole GF file, up to its postamble."""
    read = Reader(data)
    if read.unsigned(1) != 247 or read.unsigned(1) != 131:
        raise Refused('preamble')
    read.take(read.unsigned(1))
    is_open = False
    while (opcode := read.unsigned(1)) != 248 or is_open:
        fields = INSIDE if is_open else BETWEEN
        if 239 <= opcode <= 242:
            read.take(read.unsigned(opcode - 238))
        elif opcode not in fields:
            raise Refused(f'misplaced {opcode}')
        else:
            read.take(fields[opcode])
            is_open = opcode in HEADS or is_open and opcode != 69
