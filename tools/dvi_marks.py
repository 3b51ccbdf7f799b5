"""Where the marks of a DVI document lie, for the scripts: whether some lie off the sheet that its pages are drawn on."""
import functools, itertools, math, os, re

from dvi_files import Reader, Refused, judge_tfm

# A longer document isn't walked through: its greatest page, as the end of the file has it, must do.
MAX_WALKED = 2 << 20
# So many sets of registers may be saved.
MAX_SAVED = 1000
# A box may reach this far over an edge, in dots: no ink is lost yet.
SPARE = 2


class Unknown(Exception):
    """A page can't be walked through: a font's metrics aren't there, or the page has a fault."""


def boxes(data, size):
    """The widths, heights and depths of a TFM file's characters at a size, by their codes."""
    judge_tfm(data)
    counts = [int.from_bytes(data[at:at + 2], 'big') for at in range(0, 24, 2)]
    first, last, places = counts[2], counts[3], [24 + 4 * counts[1]]
    for count in (last - first + 1, *counts[4:6]):
        places.append(places[-1] + 4 * count)

    def value(place, index):
        at = place + 4 * index
        return int.from_bytes(data[at:at + 4], 'big', signed=True) * size / 2 ** 20

    found = {}
    for code in range(first, last + 1):
        at = places[0] + 4 * (code - first)
        wide, high = data[at], data[at + 1]
        if wide:
            found[code] = value(places[1], wide), value(places[2], high >> 4), value(places[3], high & 15)
    return found


# The commands that move: the register that they set, if any, the axis, and how many bytes the field has; without one they move by what
# the register has.
MOVES = {first + count: (register, axis, count + (register is None)) for first, register, axis in (
    (143, None, 'h'), (147, 'w', 'h'), (152, 'x', 'h'), (157, None, 'v'), (161, 'y', 'v'), (166, 'z', 'v'))
    for count in range(4 if register is None else 5)}
WORD = re.compile(rb'[\x00-\x7f]+')


class Face:
    """A font's boxes, and those of the words that were set in it."""

    def __init__(self, found):
        self.boxes, self.words = found, {}

    def word(self, codes):
        """How far a word moves, reaches to the right, up and down."""
        if codes not in self.words:
            try:
                boxes = [self.boxes[code] for code in codes]
            except KeyError:
                raise Unknown
            moved = list(itertools.accumulate(wide for wide, _, _ in boxes))
            self.words[codes] = moved[-1], max(moved), max(high for _, high, _ in boxes), max(deep for _, _, deep in boxes)
        return self.words[codes]


@functools.lru_cache(100)
def face(path, size):
    with open(path, 'rb') as file:
        return Face(boxes(file.read(), size))


class Page:
    """The registers of a page, and how far its marks reach from its origin, in DVI units: left, up, right and down. A page without
    marks reaches nowhere."""

    def __init__(self):
        self.h = self.v = self.w = self.x = self.y = self.z = 0
        self.stack, self.face, self.reach = [], None, [-math.inf] * 4

    def mark(self, wide, high, deep):
        # (this is done for each word: without a loop)
        reach, h, v = self.reach, self.h, self.v
        if -h > reach[0]:
            reach[0] = -h
        if high - v > reach[1]:
            reach[1] = high - v
        if h + wide > reach[2]:
            reach[2] = h + wide
        if v + deep > reach[3]:
            reach[3] = v + deep

    def characters(self, codes, moves):
        if self.face is None:
            raise Unknown
        moved, *box = self.face.word(codes)
        self.mark(*box)
        self.h += moved if moves else 0

    def rule(self, high, wide, moves):
        if high > 0 and wide > 0:
            self.mark(wide, high, 0)
        self.h += wide if moves else 0

    def move(self, opcode, read):
        register, axis, size = MOVES[opcode]
        amount = read.signed(size) if size else getattr(self, register)
        if register:
            setattr(self, register, amount)
        setattr(self, axis, getattr(self, axis) + amount)

    def push(self):
        if len(self.stack) == MAX_SAVED:
            raise Unknown
        self.stack.append((self.h, self.v, self.w, self.x, self.y, self.z))

    def pop(self):
        if not self.stack:
            raise Unknown
        self.h, self.v, self.w, self.x, self.y, self.z = self.stack.pop()


def walk(data, face_of):
    """How far the marks of each page reach, in the pages' order; the document is known to be one."""
    read, page, found = Reader(data, 14), None, []
    read.take(read.unsigned(1))
    while (opcode := data[read.at]) != 248:
        read.at += 1
        if opcode < 128:
            word = WORD.match(data, read.at - 1)[0]
            read.at += len(word) - 1
            page.characters(word, True)
        elif 143 <= opcode <= 170:
            page.move(opcode, read)
        elif opcode in (141, 142):
            page.push() if opcode == 141 else page.pop()
        elif opcode <= 131:
            page.characters((read.number(opcode - 127),), True)
        elif opcode in (132, 137):
            page.rule(read.signed(4), read.signed(4), opcode == 132)
        elif opcode <= 136:
            page.characters((read.number(opcode - 132),), False)
        elif opcode == 139:
            read.take(44)
            page = Page()
        elif opcode == 140:
            found.append(page.reach)
        elif 171 <= opcode <= 238:
            page.face = face_of(opcode - 171 if opcode < 235 else read.number(opcode - 234))
        elif 239 <= opcode <= 242:
            read.take(read.number(opcode - 238))
        elif 243 <= opcode <= 246:
            read.take(opcode - 242 + 12)
            read.take(read.unsigned(1) + read.unsigned(1))
    return found


def reaches(document, path, folder):
    """How far the marks of each page reach, where the folder of fonts has all metrics; else how far the greatest page does."""
    def face_of(number):
        font = document.fonts.get(number)
        if font is None or not font.is_looked_for():
            raise Unknown
        return face(os.path.join(folder, f'{font.name}.tfm'), font.size)

    try:
        if os.path.getsize(path) > MAX_WALKED:
            raise Unknown
        with open(path, 'rb') as file:
            return True, walk(file.read(), face_of)
    except (Unknown, Refused, OSError):
        return False, [[0, 0, document.wide, document.high]]


def off_sheet(document, path, resolution, sheet):
    """A line where marks lie off the sheet of these sides, with the document's origin so far from its left and upper edge, in dots."""
    wide, high, left, top = sheet
    edges = left, top, wide - left, high - top
    whole, pages = reaches(document, path, os.environ.get('DVIPBM_FONTS') or '.')
    over = [[document.dots(reach, resolution) - edge for reach, edge in zip(page, edges)] for page in pages]
    off = [number for number, page in enumerate(over, 1) if max(page) > SPARE]
    if not off:
        return []
    most = [max(page[side] for page in over) for side in range(4)]
    where = ', '.join(f'{most[side]:.0f} dots {name}' for side, name in enumerate(('to the left', 'above', 'to the right', 'below'))
                      if most[side] > SPARE)
    pages = f'on {len(off)} of {len(pages)} pages, first on page {off[0]}' if whole else 'by the size of its greatest page'
    return [f'marks lie off the sheet of {wide} by {high} dots and are cut, {pages}: up to {where}']
