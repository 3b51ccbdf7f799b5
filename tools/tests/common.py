"""What the tests of scripts and of the program share: where things are, and small documents."""
import os, shutil, subprocess, unittest

TOP = os.path.dirname(os.path.dirname(os.path.dirname(os.path.abspath(__file__))))
PROGRAM = os.environ.get('DVIPBM', f'{TOP}/crates/dvipbm/out/dvipbm')
SAMPLE = f'{TOP}/docs/sample'
RECIPES = f'{TOP}/docs/recipes'
SPOOL = os.environ.get('DVISPOOL', f'{TOP}/crates/dvispool/out/dvispool')
needs_program = unittest.skipUnless(os.path.exists(PROGRAM), f'there is no {PROGRAM}: run make first')
needs_spool = unittest.skipUnless(os.path.exists(SPOOL), f'there is no {SPOOL}: run make first')


def number(value, size):
    return value.to_bytes(size, 'big', signed=value < 0)


def definition(font, name=b'drawn12', size=786432, design=786432, area=b''):
    return b'\xf3' + bytes([font]) + bytes(4) + number(size, 4) + number(design, 4) + bytes([len(area), len(name)]) + area + name


def page(body, back=-1):
    return b'\x8b' + bytes(40) + number(back, 4) + body + b'\x8c'


def document(body=b'', fonts=b'', num=25400000, den=473628672, mag=1000, pages=None, filler=None):
    """A document of the given pages' bodies; fonts are defined before them and after the postamble."""
    units = number(num, 4) + number(den, 4) + number(mag, 4)
    text, last = bytes([247, 2]) + units + bytes([0]) + fonts, -1
    bodies = [body] if isinstance(body, bytes) else body
    for one in bodies:
        here = len(text)
        text, last = text + page(one, last), here
    post = len(text)
    text += b'\xf8' + number(last, 4) + units + bytes(8) + number(1, 2) + number(len(bodies) if pages is None else pages, 2) + fonts
    text += b'\xf9' + number(post, 4) + b'\x02'
    return text + (b'\xdf' * (4 + -len(text) % 4) if filler is None else filler)


def needs(*tools):
    lacking = [tool for tool in tools if not shutil.which(tool)]
    return unittest.skipIf(lacking, f'not installed: {", ".join(lacking)}')


def environment_of(room, **more):
    """An environment in which nothing that was made or set before counts: TeX's folders and the cache of fonts lie in the room."""
    own = {'XDG_CACHE_HOME': 'cache', 'TEXMFVAR': 'texmf-var', 'TEXMFCONFIG': 'texmf-config', 'TEXMFHOME': 'texmf', 'VARTEXFONTS': 'texfonts',
           'HOME': 'home'}
    kept = {name: value for name, value in os.environ.items() if name not in ('DVIPBM_FONTS', 'MFMODE', 'PARALLEL', 'PARALLEL_SSH', 'TEXINPUTS')}
    return {**kept, **{name: os.path.join(room, folder) for name, folder in own.items()}, **more}


def run(data, fonts=SAMPLE, options=(), **how):
    """Runs the program on a document, and gives its status, output and notes."""
    environment = {**os.environ, 'DVIPBM_FONTS': fonts}
    ran = subprocess.run([PROGRAM, *options], input=data, capture_output=True, env=environment, timeout=60, **how)
    return ran.returncode, ran.stdout, ran.stderr.decode('ascii', 'replace')
