"""Making of PK and GF files for tools/collect-fonts: by which mode of METAFONT, and where they are kept."""
import os, re, shutil, subprocess, tempfile

from dvi_files import MAX_FONT, Refused, judge_tfm, virtual_fonts
from gf_files import judge_gf
from pk_files import checksum, judge_pk, reduced

# The modes of METAFONT by their resolutions: first those that mktexpk chooses by itself, then what else modes.mf has in square dots.
GUESSED = {85: 'sun', 100: 'nextscrn', 180: 'toshiba', 300: 'cx', 360: 'epstylus', 400: 'nexthi', 600: 'ljfour', 720: 'epscszz',
           1200: 'ultre', 1270: 'linoone'}
MODES = {44: 'fourfour', 70: 'datadisc', 72: 'mactrue', 78: 'vs', 82: 'decsmall', 83: 'eighthre', 91: 'nineone', 95: 'ncd', 96: 'atarins',
         110: 'ibmvga', 118: 'bitgraph', 120: 'onetz', 144: 'lasf', 150: 'ljlo', 160: 'nectzo', 200: 'highfax', 240: 'canonlbp',
         320: 'neclm', 384: 'dover', 406: 'agfafzz', 508: 'ocessfz', 635: 'linolo', 800: 'lwpro', 1000: 'lmaster', 1016: 'apssixhi',
         1800: 'vtftzz', 2400: 'supre', 2540: 'linotzzh', 3386: 'linolttz'}
SCALED, BASE = 'ljfour', 600
# METAFONT fails at most letters in fewer dots to the inch than these, and at some in fewer than twice as many: those are made of ones
# in four times as many or more.
FEWEST = 50
JUDGES = {'tfm': judge_tfm, 'vf': virtual_fonts, 'pk': judge_pk, 'gf': judge_gf}


def fault_of(kind, path):
    """What is wrong with a file, or None."""
    try:
        with open(path, 'rb') as file:
            data = file.read(MAX_FONT + 1)
        if len(data) > MAX_FONT:
            return 'too long'
        JUDGES[kind](data)
    except Refused as fault:
        return str(fault)
    except OSError as error:
        return error.strerror
    return None


def run(*words, **how):
    """The lines that a program prints, and the last one of its notes; none where it isn't there."""
    try:
        ran = subprocess.run(words, stdin=subprocess.DEVNULL, capture_output=True, text=True, errors='replace', **how)
    except OSError:
        return [], ''
    return ran.stdout.split('\n')[:-1], next((line for line in reversed(ran.stderr.split('\n')) if line.strip()), '')


def mode_of(resolution):
    """The mode for a resolution, its own resolution, and the words that name it to mktexpk."""
    if os.environ.get('MFMODE'):
        return os.environ['MFMODE'], resolution, ['--mfmode', os.environ['MFMODE']]
    if resolution in GUESSED:
        return GUESSED[resolution], resolution, []
    if resolution in MODES:
        return MODES[resolution], resolution, ['--mfmode', MODES[resolution]]
    return SCALED, BASE, ['--mfmode', SCALED]


def mktexpk_words(dpi, resolution):
    _, base, mode = mode_of(resolution)
    return ['mktexpk', *mode, '--bdpi', str(base), '--mag', f'{dpi // base}+{dpi % base}/{base}', '--dpi', str(dpi)]


def cache_folder():
    """Where fonts are kept for the next folder, or None where the environment has no such place."""
    given = os.environ.get('XDG_CACHE_HOME', '')
    if os.path.isabs(given):
        return os.path.join(given, 'dvipbm')
    home = os.environ.get('HOME', '')
    return os.path.join(home, '.cache', 'dvipbm') if os.path.isabs(home) else None


def copy(source, path):
    """Copies a file in one step: the name has the whole file or what it had before."""
    with tempfile.NamedTemporaryFile(dir=os.path.dirname(path) or '.', prefix='.collect-', delete=False) as file:
        try:
            with open(source, 'rb') as given:
                shutil.copyfileobj(given, file)
            file.close()
            os.chmod(file.name, 0o644)
            os.replace(file.name, path)
        except BaseException:
            os.unlink(file.name)
            raise


class Maker:
    """Makes PK files by mktexpk in folders of its own, and keeps them in the cache; without gftopk, GF files by METAFONT."""

    def __init__(self, resolution):
        self.resolution, self.here = resolution, os.getcwd()
        folder, mode = cache_folder(), mode_of(resolution)[0]
        self.cache = os.path.join(folder, 'pk', mode) if folder and re.fullmatch(r'\w+', mode) else None

    def kept(self, font, dpi, metric):
        """The cache's file of a font, where it is good and was made for these metrics."""
        path = self.cache and os.path.join(self.cache, f'{font}.{dpi}pk')
        if not path or not os.path.isfile(path) or fault_of('pk', path):
            return None
        with open(path, 'rb') as file, open(metric, 'rb') as other:
            sums = checksum(file.read()), other.read()
        own = sums[1][24:28]
        return path if own == sums[0] or bytes(4) in (own, sums[0]) else None

    def keep(self, path):
        """Puts what was made into the cache; a cache that can't be written is none."""
        try:
            os.makedirs(self.cache, exist_ok=True)
            copy(path, os.path.join(self.cache, os.path.basename(path)))
        except OSError:
            self.cache = None

    def mktexpk(self, font, dpi, room):
        """The PK file that mktexpk makes, or None with the last line that it said. Of an outline it makes one by gsftopk; where that
        fails, as on Debian 12, by ps2pk."""
        said = ''
        for more in ({}, {'ps_to_pk': 'ps2pk'}):
            lines, last = run(*mktexpk_words(dpi, self.resolution), '--destdir', room, font, cwd=room, env={**self.environment(), **more})
            if lines and os.path.isfile(lines[-1]):
                return lines[-1], ''
            said = said or last
        return None, said

    def environment(self):
        # What fails leaves its log in the current folder, so that one is the room; fonts in ours are still found.
        paths = {name: f'{self.here}:{os.environ.get(name, "")}' for name in ('MFINPUTS', 'T1FONTS', 'ENCFONTS', 'TFMFONTS')}
        return {**os.environ, **paths}

    def metafont(self, font, dpi, room):
        """The GF file that METAFONT makes, or None; not where gftopk is, by which mktexpk makes a PK file."""
        program = shutil.which('mf-nowin') or shutil.which('mf')
        if shutil.which('gftopk') or not program or dpi < FEWEST:
            return None
        mode, base, _ = mode_of(self.resolution)
        name = ['-progname=mf'] if program.endswith('mf-nowin') else []
        run(program, *name, rf'\mode:={mode}; mag:={dpi // base}+{dpi % base}/{base}; nonstopmode; input {font}', cwd=room, env=self.environment())
        path = os.path.join(room, f'{font}.{dpi}gf')
        return path if os.path.isfile(path) else None

    def made(self, font, dpi, room):
        """As mktexpk, and at few dots to the inch a file that is reduced from one of more dots."""
        path, said = (None, '') if dpi < FEWEST else self.mktexpk(font, dpi, room)
        if path is None and dpi < 2 * FEWEST:
            times = -(-4 * FEWEST // dpi)
            path, said = self.mktexpk(font, times * dpi, room)
            if path and not fault_of('pk', path):
                with open(path, 'rb') as file:
                    data = reduced(file.read(), times)
                path = os.path.join(room, f'{font}.{dpi}pk')
                with open(path, 'wb') as file:
                    file.write(data)
        return path, said
