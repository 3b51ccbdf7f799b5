"""The sample's letters: curves, drawn with elliptical pens on a grid of 50 units to the em.

A glyph is its width and its strokes. A stroke is a pen and a path: M x y begins one, L x y is a line, C x y x y x y a cubic curve,
O x y a b an ellipse about a point, and D x y a dot. Upright strokes come out wide and level ones thin, as with a broad pen.
"""
import math

EM = 50
# Half the width and half the height of each pen.
PENS = {'full': (2.0, 0.8), 'thin': (0.9, 0.8), 'firm': (1.7, 1.4), 'level': (0.9, 0.9), 'dot': (2.4, 2.4)}


def strokes(text):
    """Pairs of a pen and a path, from lines 'pen: path'; a path with no pen is drawn with the full one."""
    found = []
    for part in filter(None, map(str.strip, text.split(';'))):
        pen, colon, path = part.partition(':')
        found.append((pen.strip(), path) if colon else ('full', part))
    return found


def foot(x, left=5, right=5, y=1):
    return f'thin: M{x - left} {y} L{x + right} {y};'


def stem(x, top, flag=True, bottom=2):
    return f'M{x} {bottom} L{x} {top - 1};' + (f'thin: M{x - 5} {top - 1.5} L{x} {top};' if flag else '')


def arch(x, to):
    """From a stem at x over to another one, down to its foot."""
    return f'M{x} 14 C{x + 2} 19 {x + 5} 22 {x + 9} 22 C{to - 2} 22 {to} 19.5 {to} 15 L{to} 2;' + foot(to)


BOWL = 'M 6 15.5 C 8 20 11 22 14.5 22 C 20 22 24 17.5 24 11.4 C 24 4.5 20 0.8 14.5 0.8 C 11 0.8 8 2.6 6 6.5;'
LEFT_BOWL = 'M 22 15.5 C 20 20 17 22 13.5 22 C 8 22 4 17.5 4 11.4 C 4 4.5 8 0.8 13.5 0.8 C 17 0.8 20 2.6 22 6.5;'
GLYPHS = {
    'a': (24, 'M 16 4 L 16 15 C 16 20 13 22 9.5 22 C 6.5 22 4.5 20.5 4.2 18.5; dot: D 5 17.6; M 16 13 C 10 13 3.5 11.5 3.5 6 C 3.5 2.6 6 0.8 9 0.8 '
              'C 12.5 0.8 16 3.4 16 7; thin: M 16 4 C 16 1.8 17.2 0.8 18.6 0.8 C 20.4 0.8 21.4 2.2 21.6 5'),
    'b': (28, stem(6, 35) + BOWL),
    'c': (22, 'M 18.4 18.6 C 17 21 15 22 12.5 22 C 7 22 3.2 17.5 3.2 11.4 C 3.2 4.5 7.2 0.8 12.5 0.8 C 16 0.8 18.6 2.8 19.8 6.4; dot: D 17.6 17.6'),
    'd': (28, stem(22, 35) + LEFT_BOWL + foot(22, 0, 5)),
    'e': (22, 'thin: M 4 12 L 18.6 12; M 19 12 C 19 18.5 16 22 12 22 C 7 22 3.2 17.5 3.2 11.4 C 3.2 4.5 7.2 0.8 12.5 0.8 C 16 0.8 18.6 2.8 19.8 6.4'),
    'f': (16, 'M 6 2 L 6 27 C 6 32 8.5 34.4 12 34.4 C 14 34.4 15.2 33.6 15.6 32.4; dot: D 15 31.4; thin: M 1.5 21.2 L 13 21.2;' + foot(6, 5, 6)),
    'g': (25, 'O 11 15 7 6.8; thin: M 16 19.6 C 18 22 20 22.4 22.4 21.2; dot: D 22 20.6; thin: M 6.5 10 C 4.4 8.4 4 5.6 6.4 4.2; '
              'firm: M 6.4 4.2 C 9 3 14 3.4 17 3; M 17 3 C 21.5 2.2 23 0 22.4 -3 C 21.6 -7 17 -9.6 12 -9.6 C 6 -9.6 2.6 -7 2.6 -3.8 C 2.6 -1 4.4 1.4 7 3.4'),
    'h': (29, stem(6, 35) + foot(6) + arch(6, 22)),
    'i': (14, stem(7, 22) + foot(7) + 'dot: D 6.6 31'),
    'j': (15, 'M 8 21 L 8 -4 C 8 -8 6 -9.6 3.6 -9.6; thin: M 3 20.5 L 8 22; dot: D 3 -8; dot: D 7.6 31'),
    'k': (27, stem(6, 35) + foot(6) + 'thin: M 6 8 L 19 20.4; thin: M 14 21 L 24 21; M 11 13 L 21.4 2;' + foot(21, 5, 5)),
    'l': (14, stem(7, 35) + foot(7)),
    'm': (44, stem(6, 22) + foot(6) + arch(6, 22) + arch(22, 38)),
    'n': (29, stem(6, 22) + foot(6) + arch(6, 22)),
    'o': (25, 'O 12.5 11.4 9.2 10.6'),
    'p': (28, stem(6, 22, bottom=-9) + BOWL + foot(6, 5, 5, -9)),
    'q': (28, 'M 22 -9 L 22 20; thin: M 19.5 18.5 L 22 22;' + LEFT_BOWL + foot(22, 5, 5, -9)),
    'r': (20, stem(6, 22) + foot(6) + 'M 6 14 C 7.5 19 10 22 13.6 22 C 15.6 22 17 21.2 17.4 20; dot: D 16.4 19.2'),
    's': (19, 'M 15.6 17 C 14.6 20.4 12.4 22 9.5 22 C 6 22 3.6 20 3.6 17; firm: M 3.8 17 C 3.8 13.5 6.5 12.8 9.8 11.6 C 13.5 10.4 15.6 9 15.6 6; '
              'M 15.6 6 C 15.6 2.6 13 0.8 9.5 0.8 C 6 0.8 3.6 2.6 2.8 6.6; thin: M 15.6 17 L 15.8 21.6; thin: M 2.8 6.6 L 2.6 1.2'),
    't': (19, 'M 7 28 L 7 6 C 7 2.6 8.6 0.8 11.2 0.8 C 13.8 0.8 15.2 2.6 15.6 6.4; thin: M 2 21.2 L 15 21.2; thin: M 7 29 C 6 25.4 4.6 22.6 2 21.4'),
    'u': (29, stem(6, 22, bottom=7) + 'M 6 8 C 6 3 8.5 0.8 12 0.8 C 16 0.8 20 3 22 7.6;' + stem(22, 22) + foot(22, 0, 5)),
    'v': (27, 'M 5 20.6 L 13.4 1.6; thin: M 13.4 1.6 L 21.6 21; thin: M 1 21 L 10 21; thin: M 17 21 L 26 21'),
    'w': (37, 'M 5 20.6 L 12 1.6; thin: M 12 1.6 L 18.6 20.6; M 18.4 20.6 L 25.2 1.6; thin: M 25.2 1.6 L 32 21; thin: M 1 21 L 9.5 21; '
              'thin: M 14.4 21 L 22.6 21; thin: M 28 21 L 36 21'),
    'x': (27, 'M 6 20.6 L 20.6 1.6; thin: M 20.4 21 L 6 1; thin: M 1.5 21 L 11 21; thin: M 16 21 L 24.6 21; thin: M 1.5 1 L 10 1; thin: M 15.6 1 L 25.4 1'),
    'y': (27, 'M 5 20.6 L 13.4 1.6; thin: M 21.6 21 L 13.4 1.6 L 10.6 -5 C 9.4 -8 7.6 -9.6 5.4 -9.6; dot: D 4.6 -8; thin: M 1 21 L 10 21; thin: M 17 21 L 26 21'),
    'z': (22, 'thin: M 3.6 21 L 18.4 21; M 17.6 20 L 4 2; thin: M 3.6 1 L 18.8 1; thin: M 3.6 21 L 3 15.6; thin: M 18.8 1 L 19.6 6.6'),
    'A': (38, 'thin: M 18.6 34.4 L 6 1; M 18.8 33 L 31 2; thin: M 10.4 12 L 26.4 12;' + foot(6, 4.5, 5) + foot(31, 6, 5)),
    'B': (35, stem(8, 34, False) + foot(8, 6, 4) + foot(8, 6, 4, 33) + 'M 8 33 L 18 33 C 24 33 27.4 30 27.4 25.6 C 27.4 21 24 18 18 18 L 8 18; '
              'M 18 18 C 26 18 30 14.6 30 9.6 C 30 4.4 26 1 18.6 1 L 8 1'),
    'E': (34, stem(8, 34, False) + foot(8, 6, 20) + foot(8, 6, 19, 33) + 'thin: M 8 17.6 L 20 17.6; thin: M 20 12.6 L 20 22.6; thin: M 27 33 L 28 25; '
              'thin: M 28 1 L 30 10'),
    'F': (32, stem(8, 34, False) + foot(8, 6, 7) + foot(8, 6, 19, 33) + 'thin: M 8 17 L 19 17; thin: M 19 12 L 19 22; thin: M 27 33 L 28 24.6'),
    'G': (38, 'M 29.4 26 C 28 31.4 24.4 34 20 34 C 11 34 4.2 27 4.2 17 C 4.2 7 11 0.4 20 0.4 C 25 0.4 28.6 2.6 30 7; M 31 2 L 31 13; '
              'thin: M 25.4 13.4 L 35.4 13.4; thin: M 29.4 26 L 29.8 33.6'),
    'I': (18, stem(9, 34, False) + foot(9, 6, 6) + foot(9, 6, 6, 33)),
    'L': (31, stem(8, 34, False) + foot(8, 6, 19) + foot(8, 6, 7, 33) + 'thin: M 27 1 L 28.6 12'),
    'S': (28, 'M 23 26 C 22 31 18.6 34.2 13.6 34.2 C 8 34.2 4.6 30.6 4.6 26; firm: M 4.8 26 C 4.8 20.6 9 19.4 13.6 18 C 19.4 16.2 23.6 14 23.6 8.6; '
              'M 23.6 8.6 C 23.6 3.4 19.6 0.4 14 0.4 C 8.6 0.4 4.6 3.6 3.4 10; thin: M 23 26 L 23.4 33.6; thin: M 3.4 10 L 3.2 1'),
    'T': (36, stem(18, 34, False) + foot(18, 6, 6) + 'thin: M 3.4 33 L 32.6 33; thin: M 3.4 33 L 2.4 24.6; thin: M 32.6 33 L 33.6 24.6'),
    'W': (50, 'M 6.4 33 L 15.4 1.4; thin: M 15.4 1.4 L 24.6 33; M 24.4 33 L 33.4 1.4; thin: M 33.4 1.4 L 42.4 33; thin: M 1 33 L 11.6 33; '
              'thin: M 19 33 L 30 33; thin: M 38 33 L 47 33'),
    '0': (25, 'O 12.5 16.6 8.6 16'),
    '1': (25, stem(13, 33.5, False) + 'thin: M 6.6 28.4 C 9.4 29.4 11.4 31 13 33.2;' + foot(13, 7, 7)),
    '2': (25, 'dot: D 6 25.6; M 4.6 26 C 4.6 30.4 8 32.8 12 32.8 C 17 32.8 20 29.6 20 25.4 C 20 20 16 16 11 11 C 7.5 7.5 5.4 4.6 4.2 2; '
              'firm: M 4.6 1.6 L 19.6 1.6; thin: M 20 1.6 L 21.4 8'),
    '3': (25, 'dot: D 6 26.6; M 5 27.4 C 6 30.8 8.8 32.8 12 32.8 C 16.4 32.8 19 30 19 25.8 C 19 21 15.6 17.8 10 17.6; '
              'M 10 17.6 C 16.6 17.6 20.6 14.4 20.6 9 C 20.6 3.8 16.8 0.6 11.8 0.6 C 7.8 0.6 5 2.6 4.2 6; dot: D 5.4 6.6'),
    '4': (25, 'thin: M 16 32.6 L 3 10.4; thin: M 3 10 L 22.6 10;' + stem(17, 33, False) + foot(17, 6, 5)),
    '5': (25, 'firm: M 6.6 31.6 L 18.6 31.6; thin: M 6 31 L 5.4 16.6; M 5.4 16.6 C 7 19.6 9.4 21 12.4 21 C 17.4 21 20.6 17 20.6 11 C 20.6 4.6 16.8 0.6 11.6 0.6 '
              'C 7.8 0.6 5 2.6 4.2 6; dot: D 5.4 6.6'),
    '6': (25, 'O 12.6 10.6 8 10; M 19 28 C 18 31 16 32.8 13.4 32.8 C 8 32.8 4.4 25 4.4 13; dot: D 18.2 27.2'),
    '7': (25, 'firm: M 5 31.4 L 20.6 31.4; thin: M 5 31.4 L 3.8 24.6; M 20.6 31 C 15 24 11.6 16 10.6 2'),
    '8': (25, 'O 12.5 25 6.8 7.8; O 12.5 9 8 8.4'),
    '9': (25, 'O 12.4 22.6 8 10; M 6 5.4 C 7 2.2 9 0.6 11.6 0.6 C 17 0.6 20.6 8.4 20.6 20.4; dot: D 6.8 6.2'),
    '.': (14, 'dot: D 7 2.2'),
    ',': (14, 'dot: D 7 2.2; thin: M 8.4 2 C 8.6 -1.6 7.2 -5 4.8 -7.4'),
    '-': (17, 'level: M 2.6 10 L 14 10; level: M 2.6 11 L 14 11'),
    ':': (14, 'dot: D 7 2.2; dot: D 7 18.6'),
    '(': (19, 'M 14.4 37 C 9 31.6 5.4 23.6 5.4 12.6 C 5.4 1.6 9 -6.4 14.4 -12'),
    ')': (19, 'M 4.6 37 C 10 31.6 13.6 23.6 13.6 12.6 C 13.6 1.6 10 -6.4 4.6 -12'),
    '=': (39, 'level: M 3 9 L 36 9; level: M 3 17 L 36 17'),
    '+': (39, 'level: M 3 13 L 36 13; level: M 19.5 -3.5 L 19.5 29.5'),
    '<': (39, 'level: M 34 27 L 5 13 L 34 -1'),
    '~': (39, 'level: M 3 13 L 36 13'),
    '#': (39, 'level: M 3 15 L 36 15; level: M 19.5 -1 L 19.5 31; level: M 3 -4 L 36 -4'),
    'P': (29, 'firm: M 3 17.6 C 5 20.4 7 20.6 10 20.6 L 26 20.6; thin: M 11 20 C 10.8 12 9.6 6 6.6 1.4; M 19 20 C 18.4 12 18.6 6 20.4 2 C 21.4 0.4 23.4 0.6 24.6 3'),
    'O': (50, 'M 25 11.4 C 20 19 16.4 21.6 12.6 21.6 C 7.6 21.6 4.4 17.4 4.4 11.4 C 4.4 5.4 7.6 1.2 12.6 1.2 C 16.4 1.2 20 4 25 11.4 '
              'C 30 19 33.6 21.6 37.4 21.6 C 42.4 21.6 45.6 17.4 45.6 11.4 C 45.6 5.4 42.4 1.2 37.4 1.2 C 33.6 1.2 30 4 25 11.4'),
    'Z': (72, 'thin: M 5 48 L 62 48; thin: M 5 47 L 62 47; M 7 47 L 33 13; thin: M 33 13 L 5 -21; thin: M 5 -22 L 62 -22; firm: M 5 -20.6 L 60 -20.6; '
              'thin: M 62 48 L 65 34; thin: M 62 -22 L 66 -6'),
    'J': (34, 'M 28.4 56 C 26 60 21 59 19.8 52 C 18.4 44 17.4 28 16.4 6 C 15.6 -8 14.6 -22 12 -28 C 10 -32.4 5.6 -32 4 -29; dot: D 28 54.8; dot: D 5 -27.8'),
    'V': (42, 'thin: M 3 15 L 9 18.6; full: M 9 18.6 L 21 -14; thin: M 21 -14 L 41 46'),
}


def points(path):
    """The path's lines, as lists of points; curves are cut into 24 pieces."""
    words = path.replace(',', ' ')
    for letter in 'MLCOD':
        words = words.replace(letter, f' {letter} ')
    tokens, lines, at = words.split(), [], 0

    def numbers(count):
        nonlocal at
        at += count
        return [float(word) for word in tokens[at - count:at]]

    while at < len(tokens):
        kind = tokens[at]
        at += 1
        if kind == 'M':
            lines.append([tuple(numbers(2))])
        elif kind == 'L':
            lines[-1].append(tuple(numbers(2)))
        elif kind == 'C':
            start, (bx, by, cx, cy, dx, dy) = lines[-1][-1], numbers(6)
            for step in range(1, 25):
                t, u = step / 24, 1 - step / 24
                part = [u ** 3, 3 * u * u * t, 3 * u * t * t, t ** 3]
                lines[-1].append((part[0] * start[0] + part[1] * bx + part[2] * cx + part[3] * dx,
                                  part[0] * start[1] + part[1] * by + part[2] * cy + part[3] * dy))
        elif kind == 'O':
            x, y, a, b = numbers(4)
            lines.append([(x + a * math.cos(2 * math.pi * i / 72), y + b * math.sin(2 * math.pi * i / 72)) for i in range(73)])
        else:
            lines.append([tuple(numbers(2))] * 2)
    return lines


def dots(glyph, scale, slant=0.0, weight=1.0):
    """The pixels of a glyph, as (column, row) from the reference point up; scale is pixels a unit, weight widens the pens."""
    found = set()
    for pen, path in strokes(GLYPHS[glyph][1]):
        across, up = (max(0.52, half * scale * weight) for half in PENS[pen])
        for line in points(path):
            placed = [((x + slant * y) * scale, y * scale) for x, y in line]
            for (ax, ay), (bx, by) in zip(placed, placed[1:]):
                cover(found, ax, ay, bx, by, across, up)
    return found


def cover(found, ax, ay, bx, by, across, up):
    """Adds the pixels whose centres the pen passes on its way from a to b."""
    dx, dy = (bx - ax) / across, (by - ay) / up
    length = dx * dx + dy * dy
    for column in range(math.floor(min(ax, bx) - across), math.ceil(max(ax, bx) + across) + 1):
        px = (column + 0.5 - ax) / across
        for row in range(math.floor(min(ay, by) - up), math.ceil(max(ay, by) + up) + 1):
            py = (row + 0.5 - ay) / up
            t = min(1.0, max(0.0, (px * dx + py * dy) / length)) if length else 0.0
            if (px - t * dx) ** 2 + (py - t * dy) ** 2 <= 1:
                found.add((column, row))
