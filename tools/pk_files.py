"""Reading of PK files for the scripts, and making one of fewer dots from one of more."""
from dvi_files import Reader, Refused


def packets(data):
    """The characters of a PK file, each as its flag byte, code and packet; refuses what isn't a whole PK file up to its end."""
    read = Reader(data)
    if read.unsigned(1) != 247 or read.unsigned(1) != 89:
        raise Refused('preamble')
    read.take(read.unsigned(1))
    read.take(16)
    while (flag := read.unsigned(1)) != 245:
        if flag < 240:
            form = flag & 7
            if form == 7:
                length, code = read.unsigned(4), read.unsigned(4)
            elif form >= 4:
                length, code = (form & 3) << 16 | read.unsigned(2), read.unsigned(1)
            else:
                length, code = form << 8 | read.unsigned(1), read.unsigned(1)
            yield flag, code, read.take(length)
        elif flag <= 243:
            read.take(read.unsigned(flag - 239))
        elif flag == 244:
            read.take(4)
        elif flag != 246:
            raise Refused(f'undefined {flag}')


def judge_pk(data):
    """Refuses what isn't a whole PK file, up to its closing command."""
    for _ in packets(data):
        pass


def checksum(data):
    """The checksum of a whole PK file's font."""
    return data[7 + data[2]:11 + data[2]]


class Runs:
    """The runs of a packed raster: counts of dots, and how often the row at hand comes again."""

    def __init__(self, data, least):
        self.nybbles = (half for byte in data for half in (byte >> 4, byte & 15))
        self.least, self.again = least, 0

    def nybble(self):
        half = next(self.nybbles, None)
        if half is None:
            raise Refused('runs')
        return half

    def count(self):
        first = self.nybble()
        if first == 0:
            zeros = 1
            while (found := self.nybble()) == 0:
                zeros += 1
            for _ in range(zeros):
                found = found * 16 + self.nybble()
            return found - 15 + (13 - self.least) * 16 + self.least
        if first <= self.least:
            return first
        if first < 14:
            return (first - self.least - 1) * 16 + self.nybble() + self.least + 1
        self.again = self.count() if first == 14 else 1
        return self.count()


def rows_of(flag, wide, high, data):
    """The rows of a raster, as whole numbers whose lowest bit is the rightmost dot."""
    if flag >> 4 == 14:
        bits, spare = int.from_bytes(data, 'big'), 8 * len(data) - wide * high
        if spare < 0:
            raise Refused('short')
        return [bits >> spare + wide * (high - 1 - y) & (1 << wide) - 1 for y in range(high)]
    runs, rows, row, filled, black = Runs(data, flag >> 4), [], 0, 0, bool(flag & 8)
    while len(rows) < high:
        left = runs.count()
        while left and len(rows) < high:
            part = min(left, wide - filled)
            row = row << part | ((1 << part) - 1 if black else 0)
            left, filled = left - part, filled + part
            if filled == wide:
                rows += [row] * (1 + runs.again)
                row, filled, runs.again = 0, 0, 0
        black = not black
    return rows[:high]


def glyph(flag, packet):
    """A character's width in the font's units as three bytes, its escapement in dots, the column and row of its reference dot
    and the rows of its raster."""
    read, form = Reader(packet), flag & 7
    if form == 7:
        width, across = read.take(4)[1:], read.signed(4) / 65536
        read.take(4)
        size = 4
    else:
        size = 2 if form >= 4 else 1
        width, across = read.take(3), read.unsigned(size)
    wide, high, column, line = read.unsigned(size), read.unsigned(size), read.signed(size), read.signed(size)
    return width, across, column, line, wide, rows_of(flag, wide, high, packet[read.at:]) if wide and high else []


def cells(column, line, wide, rows, times):
    """The dots of a glyph in cells of `times` by `times`, as how many of each are black."""
    found = {}
    for y, row in enumerate(rows):
        for x in range(wide):
            if row >> (wide - 1 - x) & 1:
                cell = (x - column) // times, (line - y) // times
                found[cell] = found.get(cell, 0) + 1
    return found


def reduced(data, times):
    """A PK file with dots that are `times` as wide and high: a dot is black where a third of it was, and a glyph keeps its
    blackest one."""
    head = 3 + data[2]
    per_point = [int.from_bytes(data[head + at:head + at + 4], 'big') for at in (8, 12)]
    made = data[:head + 8] + b''.join((number // times).to_bytes(4, 'big') for number in per_point)
    for flag, code, packet in packets(data):
        width, across, *shape = glyph(flag, packet)
        found = cells(*shape, times)
        most = max(found.values(), default=0)
        black = {cell for cell, count in found.items() if 3 * count >= times * times or count == most}
        columns, lines = [column for column, _ in black] or [0], [line for _, line in black] or [0]
        left, top = min(columns), max(lines)
        wide, high = (max(columns) - left + 1, top - min(lines) + 1) if black else (0, 0)
        bits = ''.join('01'[(left + x, top - y) in black] for y in range(high) for x in range(wide))
        raster = bytes(int(bits[at:at + 8].ljust(8, '0'), 2) for at in range(0, len(bits), 8))
        numbers = (round(across / times) & 65535, wide, high, -left & 65535, top & 65535)
        body = width + b''.join(number.to_bytes(2, 'big') for number in numbers) + raster
        if code > 255 or len(body) >= 3 << 16:
            raise Refused('not reduced')
        made += bytes([14 << 4 | 4 | len(body) >> 16]) + (len(body) & 65535).to_bytes(2, 'big') + bytes([code]) + body
    return made + b'\xf5' + b'\xf6' * (-(len(made) + 1) % 4)
