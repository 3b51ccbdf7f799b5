"""What the tests of dvispool and of its recipe share: sixteen documents in the sample's fonts, and a folder to draw them in."""
import os, subprocess, tempfile, unittest

from common import SAMPLE, SPOOL, definition, document

FONTS = {'drawn12': (786432, b'T'), 'drawn8': (524288, b'1'), 'slant12': (786432, b'a'), 'slant8': (524288, b'r')}
# The units of TeX, and the same fraction in other numbers, which are other units.
UNITS = {'num': 25400000, 'den': 473628672}
OTHERS = {'num': 12700000, 'den': 236814336}
OLD = b'what was there before'


def defined(*places):
    keys = list(FONTS.items())
    return b''.join(definition(place, keys[place][0].encode(), keys[place][1][0], keys[place][1][0]) for place in places)


def page(*places):
    """A letter in each of these fonts, which are looked up one after another."""
    letters = [letter for _, letter in FONTS.values()]
    return b''.join(bytes([171 + place]) + letters[place] for place in places)


def whole(pages, units=UNITS):
    """A document of these pages, each given by its fonts."""
    return document([page(*places) for places in pages], defined(*sorted({place for places in pages for place in places})), **units)


def sixteen():
    """Sixteen documents of one to three pages, every fourth in other units; and how many look-ups and fonts those of equal units have."""
    made, looks, fonts = [], 0, set()
    for number in range(16):
        pages = [tuple((number + at * step) % 4 for step in range(1 + number % 3)) for at in range(1, 2 + number % 3)]
        made.append(whole(pages, OTHERS if number % 4 == 3 else UNITS))
        looks += sum(len(places) for places in pages)
        fonts |= {(number % 4 == 3, place) for places in pages for place in places}
    return made, looks, len(fonts)


def lines_of(statuses):
    return [f'job {job} status {status}' for job, status in enumerate(statuses, 1)]


class Rooms(unittest.TestCase):
    def setUp(self):
        place = tempfile.TemporaryDirectory()
        self.addCleanup(place.cleanup)
        self.room = place.name

    def path(self, name):
        return os.path.join(self.room, name)

    def write(self, name, data):
        with open(self.path(name), 'wb') as file:
            file.write(data)
        return name

    def read(self, name):
        """What a file holds, or None where there is none."""
        try:
            with open(self.path(name), 'rb') as file:
                return file.read()
        except FileNotFoundError:
            return None

    def spooled(self, *words, fonts=SAMPLE, **how):
        """The status of dvispool in the room, and the lines of its notes. It prints nothing on standard output."""
        how = {'stderr': subprocess.PIPE} | how
        ran = subprocess.run([SPOOL, *words], cwd=self.room, stdin=subprocess.DEVNULL, stdout=subprocess.PIPE, timeout=120,
                             env={**os.environ, 'DVIPBM_FONTS': fonts}, **how)
        self.assertEqual(ran.stdout, b'')
        return ran.returncode, None if ran.stderr is None else ran.stderr.decode().splitlines()
