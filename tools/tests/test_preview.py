"""The recipe preview, asked over HTTP: which pages it shows, and when they are drawn."""
import contextlib, json, os, re, socket, struct, subprocess, sys, tempfile, unittest, urllib.error, urllib.request, zlib

from common import PROGRAM, RECIPES, SAMPLE, document, needs_program, run

PREVIEW = f'{RECIPES}/preview'
PATIENCE = 600  # seconds that nothing here takes, on whatever machine
# In the place of dvipbm: does what the document's pages say, one word a page after "do".
STAND_IN = r'''#!{python}
import os, re, resource, sys, time
with open(os.environ['RUNS'], 'a') as runs:
    print(os.getpid(), *sys.argv[1:], file=runs)
for what in re.findall(rb'do (\w+) *([^;]*);', sys.stdin.buffer.read()):
    word, rest = what[0].decode(), what[1].decode()
    if word == 'dots':
        wide, high, rows = rest.split()
        sys.stdout.buffer.write(b'P4\n%d %d\n' % (int(wide), int(high)) + bytes.fromhex(rows))
        sys.stdout.buffer.flush()
    elif word == 'fault':
        print(rest, file=sys.stderr)
        sys.exit(3)
    elif word == 'hang':
        time.sleep(100000)
    elif word == 'spin':
        while True:
            pass
    elif word == 'bounds':
        print(resource.getrlimit(resource.RLIMIT_AS)[0] >> 20, resource.getrlimit(resource.RLIMIT_CPU)[0], file=sys.stderr)
        sys.exit(9)
'''
DOTS = [('13 3', 'a4b8' 'ffc8' '1240'), ('16 2', '0ff0' '8001'), ('8 1', '42'), ('1 1', '80')]


def special(text):
    return b'\xef' + bytes([len(text)]) + text.encode()


def asking(*pages):
    """A document whose pages ask the stand-in for these things."""
    return document([special(f'do {page};') for page in pages])


def dotted(*numbers):
    return asking(*[f'dots {" ".join(DOTS[number])}' for number in numbers])


def pixels(png):
    """The sides of a PNG picture of one bit a dot, and its rows as a PBM file has them."""
    if png[:8] != b'\x89PNG\r\n\x1a\n':
        raise AssertionError(f'no PNG: {png[:40]}')
    at, chunks = 8, {}
    while at < len(png):
        size = int.from_bytes(png[at:at + 4], 'big')
        kind, data = png[at + 4:at + 8], png[at + 8:at + 8 + size]
        if int.from_bytes(png[at + 8 + size:at + 12 + size], 'big') != zlib.crc32(kind + data):
            raise AssertionError(f'the sum of {kind} is wrong')
        chunks[kind], at = data, at + 12 + size
    wide, high, *form = struct.unpack('>2I5B', chunks[b'IHDR'])
    lines, across = zlib.decompress(chunks[b'IDAT']), (wide + 7) // 8
    if form != [1, 0, 0, 0, 0] or len(lines) != high * (across + 1) or any(lines[::across + 1]):
        raise AssertionError(f'another form: {form}')
    last = 0xff << (-wide % 8) & 0xff
    rows = [bytes(255 - byte for byte in lines[at + 1:at + 1 + across]) for at in range(0, len(lines), across + 1)]
    return wide, high, b''.join(row[:-1] + bytes([row[-1] & last]) for row in rows)


class Previews(unittest.TestCase):
    def setUp(self):
        place = tempfile.TemporaryDirectory()
        self.addCleanup(place.cleanup)
        self.room = place.name
        self.program, self.runs = f'{self.room}/dvipbm', f'{self.room}/runs'
        self.write('dvipbm', STAND_IN.replace('{python}', sys.executable).encode())
        os.chmod(self.program, 0o755)
        self.write('runs', b'')

    def write(self, name, data):
        """Puts a file there in one step, so that no look finds half of it."""
        with open(f'{self.room}/part', 'wb') as file:
            file.write(data)
        os.replace(f'{self.room}/part', f'{self.room}/{name}')

    def environment(self, **more):
        return {**os.environ, 'DVIPBM': self.program, 'DVIPBM_FONTS': SAMPLE, 'RUNS': self.runs, **more}

    @contextlib.contextmanager
    def shown(self, *words, **more):
        """A preview under way: its address, and its process."""
        with tempfile.TemporaryFile() as notes:
            words = [PREVIEW, '--seconds', str(PATIENCE), *words]
            process = subprocess.Popen(words, cwd=self.room, env=self.environment(**more), stdin=subprocess.DEVNULL, stdout=subprocess.PIPE, stderr=notes)
            try:
                address = process.stdout.readline().decode()
                if not re.fullmatch(r'http://127\.0\.0\.1:\d+/[\w-]{16,}/\n', address):
                    notes.seek(0)
                    raise AssertionError(f'no address: {address!r}, {notes.read()!r}')
                yield address.rstrip(), process
            finally:
                process.terminate()
                process.wait(PATIENCE)
                process.stdout.close()

    def asked(self, address):
        """The status, the kind and the bytes of an answer."""
        try:
            with urllib.request.build_opener(urllib.request.ProxyHandler({})).open(address, timeout=PATIENCE) as answer:
                return answer.status, answer.headers['Content-Type'], answer.read()
        except urllib.error.HTTPError as error:
            with error:
                return error.code, error.headers['Content-Type'], error.read()

    def picture(self, address, number):
        status, kind, data = self.asked(f'{address}page/{number}')
        self.assertEqual((status, kind), (200, 'image/png'), data[:200])
        return pixels(data)

    def fault(self, address, number):
        status, kind, data = self.asked(f'{address}page/{number}')
        self.assertEqual((status, kind), (422, 'text/plain; charset=utf-8'))
        return data.decode()

    def state(self, address):
        return json.loads(self.asked(f'{address}state')[2])

    def runs_so_far(self):
        with open(self.runs) as file:
            return file.read().splitlines()


def bitmap(number):
    sides, rows = DOTS[number]
    return *map(int, sides.split()), bytes.fromhex(rows)


class Shown(Previews):
    def test_each_picture_has_the_dots_of_its_page(self):
        self.write('a.dvi', dotted(0, 1, 2, 3))
        with self.shown('a.dvi') as (address, _):
            self.assertEqual(self.state(address)['pages'], 4)
            self.assertEqual([self.picture(address, number) for number in (4, 1, 2, 3)], [bitmap(number) for number in (3, 0, 1, 2)])

    def test_the_page_is_one_file_that_fetches_from_its_own_server_alone(self):
        self.write('a.dvi', dotted(0))
        with self.shown('a.dvi') as (address, _):
            with urllib.request.build_opener(urllib.request.ProxyHandler({})).open(address, timeout=PATIENCE) as answer:
                policy, page = answer.headers['Content-Security-Policy'], answer.read().decode()
        self.assertIn("default-src 'none'; connect-src 'self';", policy)
        self.assertEqual((page[:15], page.rstrip()[-7:]), ('<!doctype html>', '</html>'))
        self.assertEqual(re.findall(r'https?:|src=|href=', page), [])

    def test_a_name_is_shown_as_text(self):
        self.write('<i>&.dvi', dotted(0))
        with self.shown('<i>&.dvi') as (address, _):
            page = self.asked(address)[2].decode()
        self.assertEqual((page.count('&lt;i&gt;&amp;.dvi'), page.count('<i>')), (2, 0))

    def test_without_the_word_of_the_address_nothing_is_shown(self):
        self.write('a.dvi', dotted(0))
        with self.shown('a.dvi') as (address, _):
            port = re.search(r':(\d+)/', address)[1]
            places = ['', 'page/1', 'state', 'wrong/page/1', 'wrong/', '../../etc/passwd']
            self.assertEqual({place: self.asked(f'http://127.0.0.1:{port}/{place}')[0] for place in places}, dict.fromkeys(places, 404))
            others = ['page/0', 'page/01', 'page/x', 'page/', 'page/1/', 'runs', '../runs', 'page/99999999']
            self.assertEqual({place: self.asked(address + place)[0] for place in others}, dict.fromkeys(others, 404))
            self.assertEqual(self.runs_so_far(), [])

    @unittest.skipUnless(os.path.exists('/proc/net/tcp'), 'the system has no /proc/net/tcp')
    def test_it_listens_on_127_0_0_1_alone(self):
        self.write('a.dvi', dotted(0))
        with self.shown('a.dvi') as (address, _):
            port = int(re.search(r':(\d+)/', address)[1])
            found = []
            for table in ('/proc/net/tcp', '/proc/net/tcp6'):
                if os.path.exists(table):
                    with open(table) as file:
                        rows = [line.split() for line in file.readlines()[1:]]
                    found += [row[1] for row in rows if row[3] == '0A' and int(row[1].split(':')[1], 16) == port]
        self.assertEqual(found, [f'{int.from_bytes(socket.inet_aton("127.0.0.1"), sys.byteorder):08X}:{port:04X}'])

    @needs_program
    def test_the_sample_s_page_as_the_program_draws_it(self):
        with open(f'{SAMPLE}/sample.dvi', 'rb') as file:
            data = file.read()
        self.write('a.dvi', data)
        page = run(data)[1]
        with self.shown('a.dvi', DVIPBM=PROGRAM) as (address, _):
            self.assertEqual(self.state(address)['pages'], 1)
            wide, high, rows = self.picture(address, 1)
        self.assertTrue(b'P4\n%d %d\n' % (wide, high) + rows == page)

    @needs_program
    def test_the_fonts_beside_the_document_serve(self):
        """Without DVIPBM_FONTS; all of them lie there already, so it takes no TeX."""
        with open(f'{SAMPLE}/sample.dvi', 'rb') as file:
            data = file.read()
        self.write('a.dvi', data)
        os.mkdir(f'{self.room}/fonts')
        for name in os.listdir(SAMPLE):
            if name.endswith(('pk', 'tfm')):
                os.symlink(f'{SAMPLE}/{name}', f'{self.room}/fonts/{name}')
        with self.shown('a.dvi', DVIPBM=PROGRAM, DVIPBM_FONTS='') as (address, _):
            wide, high, rows = self.picture(address, 1)
        self.assertTrue(b'P4\n%d %d\n' % (wide, high) + rows == run(data)[1])


class Drawn(Previews):
    def test_pages_are_drawn_when_they_are_asked_for_and_once(self):
        self.write('a.dvi', dotted(0, 1))
        with self.shown('a.dvi', '--res', '100', '--width=9') as (address, _):
            self.asked(address)
            self.state(address)
            self.assertEqual(self.runs_so_far(), [])
            for number in (1, 2, 1, 2):
                self.picture(address, number)
            self.assertEqual([line.split()[1:] for line in self.runs_so_far()], [['--res', '100', '--width', '9']])

    def test_the_sheet_is_the_one_that_the_document_or_an_option_asks_for(self):
        self.write('a.dvi', document([special('papersize=100mm,50mm') + special(f'do dots {" ".join(DOTS[0])};')]))
        for options, words in (
            ([], ['--width', '1181', '--height', '591']),
            (['--res=254'], ['--res', '254', '--width', '1000', '--height', '500']),
            (['--paper', 'a6'], ['--width', '1240', '--height', '1748']),
            (['--width', '7'], ['--width', '7']),
        ):
            self.write('runs', b'')
            with self.shown('a.dvi', *options) as (address, _):
                self.picture(address, 1)
                self.assertEqual([line.split()[1:] for line in self.runs_so_far()], [words])

    def test_a_page_far_back_is_not_drawn_before_it_is_asked_for(self):
        """After it the stand-in would never end."""
        self.write('a.dvi', asking(*['dots ' + ' '.join(DOTS[0])] * 20, 'hang'))
        with self.shown('a.dvi') as (address, _):
            self.assertEqual(self.picture(address, 5), bitmap(0))
            self.assertEqual(len(self.runs_so_far()), 1)
            self.assertEqual(self.picture(address, 13), bitmap(0))
            self.assertEqual(len(self.runs_so_far()), 2)

    def test_a_file_that_changes_is_drawn_anew(self):
        self.write('a.dvi', dotted(0))
        with self.shown('a.dvi') as (address, _):
            before = self.state(address)
            self.assertEqual(self.picture(address, 1), bitmap(0))
            self.write('a.dvi', dotted(1, 2))
            after = self.state(address)
            self.assertEqual((after['pages'], after['version'] == before['version']), (2, False))
            self.assertEqual([self.picture(address, number) for number in (1, 2)], [bitmap(1), bitmap(2)])
            self.assertEqual(self.state(address), after)

    def test_a_file_that_goes_and_comes_again(self):
        self.write('a.dvi', dotted(0))
        with self.shown('a.dvi') as (address, _):
            os.remove(f'{self.room}/a.dvi')
            self.assertEqual(self.state(address), {'version': 'none', 'pages': 0})
            self.assertEqual(self.fault(address, 1), 'a.dvi: No such file or directory\n')
            self.write('a.dvi', dotted(2))
            self.assertEqual(self.picture(address, 1), bitmap(2))

    def test_a_fault_is_told_in_the_program_s_words_until_it_is_mended(self):
        self.write('a.dvi', asking('dots ' + ' '.join(DOTS[0]), 'fault dvipbm: page 2 at 99: stack empty'))
        with self.shown('a.dvi') as (address, _):
            self.assertEqual([self.fault(address, number) for number in (2, 3)], ['dvipbm: page 2 at 99: stack empty\n'] * 2)
            self.assertEqual(len(self.runs_so_far()), 1)
            self.assertEqual(self.picture(address, 1), bitmap(0))
            self.write('a.dvi', dotted(0, 1))
            self.assertEqual(self.picture(address, 2), bitmap(1))
            self.assertEqual(self.fault(address, 3), 'there is no page 3\n')


if __name__ == '__main__':
    unittest.main()
