"""Reading of DVI, VF and TFM files for the scripts: what a document defines, asks for and says, and what is wrong with a file."""
import re

MAX_DOCUMENT, MAX_FONT, MAX_PAGES, MAX_SIZE = 67_108_864, 8_388_608, 1_000_000, 2 ** 27 - 1
MAX_RESOLUTION = 4800


class Refused(Exception):
    """A file has a fault; the text says which and where."""


class Font:
    """A font's key: its name with its area, and its size and design size in DVI units."""

    def __init__(self, area, name, size, design):
        self.key = (area, name, size, design)
        self.area, self.size, self.design = area, size, design
        self.name = (area + name).decode('latin-1')

    def is_looked_for(self):
        """Whether dvipbm looks for the font's files at all."""
        return not self.area and re.fullmatch(r'[A-Za-z0-9_+-][A-Za-z0-9_+.-]{0,99}', self.name) is not None


class Reader:
    """Reads numbers from bytes, from the left."""

    def __init__(self, data, at=0):
        self.data, self.at = data, at

    def take(self, count):
        if self.at + count > len(self.data):
            raise Refused(f'truncated at {len(self.data)}')
        self.at += count
        return self.data[self.at - count:self.at]

    def unsigned(self, count):
        return int.from_bytes(self.take(count), 'big')

    def signed(self, count):
        return int.from_bytes(self.take(count), 'big', signed=True)

    def number(self, count):
        """A code or number: signed in four bytes alone."""
        return self.signed(4) if count == 4 else self.unsigned(count)


# How many bytes the commands of a page have after the opcode; specials, definitions and bop are read on their own.
FIELDS = {128 + i: i + 1 for i in range(4)} | {133 + i: i + 1 for i in range(4)} | {132: 8, 137: 8}
for first in (143, 148, 153, 157, 162, 167, 235):
    FIELDS |= {first + i: i + 1 for i in range(4)}
FIELDS |= {opcode: 0 for opcode in [*range(128), 138, 140, 141, 142, 147, 152, 161, 166, *range(171, 235)]}
BETWEEN, PAGE, POST = 'between', 'page', 'post'
# Commands of one byte that leave a page open.
BARE = re.compile(b'[' + b''.join(re.escape(bytes([opcode])) for opcode in sorted(FIELDS) if FIELDS[opcode] == 0 and opcode != 140) + b']+')


def may_stand(opcode, context):
    if opcode == 138 or 243 <= opcode <= 246:
        return True
    if context == PAGE:
        return opcode in FIELDS or 239 <= opcode <= 242
    return opcode == 249 if context == POST else opcode in (139, 248)


class Document:
    """A DVI document: its units, the fonts that it defines, and its greatest page. Refuses what dvipbm refuses, in its words.
    Each special is handed to `special` with its page, from 1."""

    def __init__(self, data, resolution, special=lambda page, text: None):
        if len(data) > MAX_DOCUMENT:
            raise Refused(f'too long at {MAX_DOCUMENT}')
        self.reader, self.fonts, self.special = Reader(data), {}, special
        self.pages, self.last_bop, self.context, self.post = 0, -1, BETWEEN, None
        self.preamble(resolution)
        while self.command():
            pass

    def preamble(self, resolution):
        read = self.reader
        for place, wanted in ((0, 247), (1, 2)):
            if read.unsigned(1) != wanted:
                raise Refused(f'preamble at {place}')
        units = []
        for place in (2, 6, 10):
            units.append(read.signed(4))
            if units[-1] <= 0:
                raise Refused(f'preamble at {place}')
        self.num, self.den, self.mag = self.units = tuple(units)
        if self.num * resolution * self.mag > 512 * 254_000_000 * self.den:
            raise Refused('scale at 2')
        read.take(read.unsigned(1))

    def command(self):
        """Reads one command, or several of one byte, and tells whether more may follow."""
        read, at = self.reader, self.reader.at
        bare = BARE.match(read.data, at) if self.context == PAGE else None
        if bare:
            read.at = bare.end()
            return True
        opcode = read.unsigned(1)
        if opcode >= 250:
            raise Refused(f'command undefined {opcode} at {at}')
        if not may_stand(opcode, self.context):
            raise Refused(f'command misplaced {opcode} at {at}')
        if opcode == 139:
            self.bop(at)
        elif opcode == 248:
            self.postamble(at)
        elif opcode == 249:
            return self.trailer(at)
        elif 243 <= opcode <= 246:
            self.definition(at, opcode - 242)
        elif 239 <= opcode <= 242:
            length = read.number(opcode - 238)
            if length < 0:
                raise Refused(f'command negative length at {at}')
            self.special(self.pages, read.take(length))
        else:
            read.take(FIELDS[opcode])
            self.context = BETWEEN if opcode == 140 else self.context
        return True

    def bop(self, at):
        self.reader.take(40)
        pointer = self.reader.signed(4)
        if self.pages == MAX_PAGES:
            raise Refused(f'too many pages at {at}')
        if pointer != self.last_bop:
            raise Refused(f'back pointer at {at}')
        self.pages, self.last_bop, self.context = self.pages + 1, at, PAGE

    def definition(self, at, count):
        read = self.reader
        number = read.number(count)
        read.take(4)
        size, design = read.signed(4), read.signed(4)
        area, name = read.unsigned(1), read.unsigned(1)
        font = Font(read.take(area), read.take(name), size, design)
        if not (1 <= size <= MAX_SIZE and 1 <= design <= MAX_SIZE):
            raise Refused(f'font definition {number} at {at}')
        if self.fonts.setdefault(number, font).key != font.key:
            raise Refused(f'font clash {number} at {at}')

    def postamble(self, at):
        read = self.reader
        fields = [('pointer', read.signed(4), self.last_bop)]
        fields += [(name, read.signed(4), wanted) for name, wanted in zip(('num', 'den', 'mag'), self.units)]
        self.high, self.wide = read.signed(4), read.signed(4)
        read.take(2)
        fields.append(('pages', read.unsigned(2), self.pages % 65536))
        for name, found, wanted in fields:
            if found != wanted:
                raise Refused(f'postamble {name} at {at}')
        self.context, self.post = POST, at

    def trailer(self, at):
        read = self.reader
        if read.signed(4) != self.post:
            raise Refused(f'trailer at {at + 1}')
        if read.unsigned(1) != 2:
            raise Refused(f'trailer at {at + 5}')
        filler = self.reader.data[read.at:]
        for place, byte in enumerate(filler):
            if byte != 223:
                raise Refused(f'trailer at {read.at + place}')
        if len(filler) < 4:
            raise Refused(f'truncated at {len(self.reader.data)}')
        return False

    def resolution_of(self, font, resolution):
        """The resolution of the font's PK file: the nearest whole number, halves up."""
        above, below = resolution * self.mag * font.size, 1000 * font.design
        return (2 * above + below) // (2 * below)

    def dots(self, units, resolution):
        """A length of the document in dots, not rounded."""
        return units * self.num * self.mag * resolution / (254_000_000 * self.den)

    def local(self, area, name, factor, design, size):
        """The key of a virtual font's own font, where the virtual font has that size."""
        halvings = max(0, size.bit_length() - 23)
        scaled = (factor * (size >> halvings) << halvings) >> 20
        above, below = design * 25_400_000 * self.den, self.num * 473_628_672 * 16
        return Font(area, name, scaled, (2 * above + below) // (2 * below))


def virtual_fonts(data):
    """The fonts that a VF file defines: area, name, size factor and design size, in the order of the file."""
    read = Reader(data)
    if read.unsigned(1) != 247 or read.unsigned(1) != 202:
        raise Refused('preamble')
    read.take(read.unsigned(1))
    read.take(8)
    found = {}
    while (opcode := read.unsigned(1)) != 248:
        if opcode <= 241:
            read.take(4 + opcode)
        elif opcode == 242:
            length = read.unsigned(4)
            read.take(8 + length)
        elif 243 <= opcode <= 246:
            number = read.number(opcode - 242)
            read.take(4)
            factor, design = read.signed(4), read.signed(4)
            area, name = read.unsigned(1), read.unsigned(1)
            made = (read.take(area), read.take(name), factor, design)
            if not 1 <= factor < 2 ** 24 or design <= 0 or found.setdefault(number, made) != made:
                raise Refused(f'local font {number}')
        else:
            raise Refused(f'misplaced {opcode}')
    return list(found.values())


def judge_tfm(data):
    """Refuses what isn't a whole TFM file by its own counts."""
    counts = [int.from_bytes(data[i:i + 2], 'big') for i in range(0, 24, 2)]
    if len(data) < 24 or len(data) < 4 * counts[0]:
        raise Refused('short')
    first, last = counts[2:4]
    if last > 255 or first > last + 1 or counts[0] != 6 + counts[1] + last - first + 1 + sum(counts[4:]):
        raise Refused('counts')


def other_kind(data):
    """What a file is that isn't a DVI file, with what to do about it, or None."""
    for head, kind in ((b'%PDF', 'a PDF file, not a DVI file; run tex or latex first, not pdftex or pdflatex'),
                       (b'%!', 'a PostScript file, not a DVI file; run tex or latex first'),
                       (b'P4', 'a PBM file: its pages are drawn already')):
        if data.startswith(head):
            return kind
    if data[:1] == b'\xf7' and data[1:2] in (b'\x05', b'\x06', b'\x07'):
        return 'an XDV file, as XeTeX makes it; run tex or latex first, not xetex or xelatex'
    if not data:
        return 'the file is empty; run tex or latex first'
    return None if data[:1] == b'\xf7' else 'not a DVI file; run tex or latex first'


def read_document(path, resolution, special=lambda page, text: None):
    """The document of a file; what isn't a DVI file at all is refused by its kind."""
    with open(path, 'rb') as file:
        data = file.read(MAX_DOCUMENT + 1)
    kind = other_kind(data)
    if kind:
        raise Refused(kind)
    document = Document(data, resolution, special)
    document.reader = None
    return document
