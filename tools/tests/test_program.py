"""The program as the system sees it: what each stream, the folder of fonts and the environment do to a run."""
import os, resource, shutil, signal, subprocess, tempfile, threading, time, unittest

from common import PROGRAM, SAMPLE, definition, document, needs_program, run

# One page with a character of the sample's font; and one with a rule, which needs no font.
LETTER = document(b'\xabT', definition(0))
AT = 60 + len(definition(0)) + 1  # where the letter stands
KEY = 'drawn12 786432 786432'
RULE = document(b'\x89\x00\x10\x00\x00\x00\x10\x00\x00')
BLANKS = document([b''] * 4)
MISSING = (4, b'', f'dvipbm: page 1 at {AT}: font {KEY}: missing tfm\n')
UNREAD = (5, b'', 'dvipbm: page 1: font source failed\n')
MOST = 8_388_608  # bytes of a font file
PAGE = b'P4\n2550 3300\n'


def called(**how):
    """Runs the program with streams as Popen takes them; how: stdin, stdout, stderr, env, preexec_fn."""
    how = {'stdin': subprocess.DEVNULL, 'stdout': subprocess.PIPE, 'stderr': subprocess.PIPE} | how
    with subprocess.Popen([PROGRAM, *how.pop('words', [])], **how) as process:
        out, notes = process.communicate(timeout=60)
    if hasattr(how['stdin'], 'close'):
        how['stdin'].close()
    return process.returncode, out, None if notes is None else notes.decode('ascii', 'replace')


def held(data):
    """A file that holds the data, open for reading from its start."""
    file = tempfile.TemporaryFile()
    file.write(data)
    file.seek(0)
    return file


def environment(**words):
    given = {name: value for name, value in os.environ.items() if name != 'DVIPBM_FONTS'}
    return given | words


class Folder(unittest.TestCase):
    def setUp(self):
        self.folder = tempfile.mkdtemp()
        self.addCleanup(shutil.rmtree, self.folder)

    def lay(self, *names):
        for name in names:
            shutil.copy(f'{SAMPLE}/{name}', self.folder)

    def drawn(self, **how):
        return run(LETTER, self.folder, **how)

    def path(self, name):
        return os.path.join(self.folder, name)


@needs_program
class FontFiles(Folder):
    def test_a_file_that_is_there(self):
        self.lay('drawn12.tfm', 'drawn12.300pk')
        status, out, notes = self.drawn()
        self.assertEqual((status, out.startswith(PAGE), any(out[len(PAGE):]), notes), (0, True, True, ''))

    def test_a_file_that_is_not_there(self):
        self.assertEqual(self.drawn(), MISSING)
        self.lay('drawn12.tfm')
        self.assertEqual(self.drawn(), (4, b'', f'dvipbm: page 1 at {AT}: font {KEY}: missing pk\n'))

    def test_a_folder_that_is_not_there(self):
        self.assertEqual(run(LETTER, self.path('none')), MISSING)

    def test_a_file_in_the_place_of_the_folder(self):
        self.assertEqual(run(LETTER, f'{SAMPLE}/drawn12.tfm'), UNREAD)

    def test_a_folder_in_the_place_of_a_file(self):
        os.mkdir(self.path('drawn12.tfm'))
        self.assertEqual(self.drawn(), UNREAD)

    def test_a_file_that_may_not_be_read(self):
        self.lay('drawn12.tfm', 'drawn12.300pk')
        os.chmod(self.folder, 0o755)
        os.chmod(self.path('drawn12.300pk'), 0)
        if os.geteuid():
            self.assertEqual(self.drawn(), UNREAD)
        else:
            with tempfile.TemporaryDirectory() as room:
                os.chmod(room, 0o755)
                program = shutil.copy(PROGRAM, room)
                ran = subprocess.run([program], input=LETTER, capture_output=True, env=environment(DVIPBM_FONTS=self.folder), user=65534, group=65534)
                self.assertEqual((ran.returncode, ran.stdout, ran.stderr.decode()), UNREAD)

    def test_the_longest_file_and_one_byte_more(self):
        for name, longer in (('drawn12.tfm', 'too long tfm'), ('drawn12.300pk', 'too long pk')):
            self.lay('drawn12.tfm', 'drawn12.300pk')
            with open(self.path(name), 'ab') as file:
                file.truncate(MOST)
                self.assertEqual(self.drawn()[::2], (0, ''))
                file.truncate(MOST + 1)
                self.assertEqual(self.drawn(), (4, b'', f'dvipbm: page 1 at {AT}: font {KEY}: {longer}\n'))

    def test_a_fifo_is_waited_for(self):
        self.lay('drawn12.300pk')
        os.mkfifo(self.path('drawn12.tfm'))
        with open(f'{SAMPLE}/drawn12.tfm', 'rb') as file:
            text = file.read()

        def write():
            with open(self.path('drawn12.tfm'), 'wb') as fifo:
                fifo.write(text)

        writer = threading.Thread(target=write)
        writer.start()
        self.assertEqual(self.drawn()[::2], (0, ''))
        writer.join()


@needs_program
class Environment(Folder):
    def drawn_in(self, folder, env):
        return called(stdin=held(LETTER), cwd=folder, env=env)

    def test_the_folder_is_that_of_the_word(self):
        self.assertEqual(self.drawn_in(self.folder, environment(DVIPBM_FONTS=SAMPLE))[::2], (0, ''))
        self.assertEqual(self.drawn_in(SAMPLE, environment(DVIPBM_FONTS=self.folder)), MISSING)

    def test_the_word_may_be_relative(self):
        self.assertEqual(self.drawn_in(os.path.dirname(SAMPLE), environment(DVIPBM_FONTS='sample'))[::2], (0, ''))

    def test_without_the_word_it_is_the_current_folder(self):
        self.assertEqual(self.drawn_in(SAMPLE, environment())[::2], (0, ''))
        self.assertEqual(self.drawn_in(self.folder, environment()), MISSING)

    def test_with_an_empty_word_it_is_the_current_folder(self):
        self.assertEqual(self.drawn_in(SAMPLE, environment(DVIPBM_FONTS=''))[::2], (0, ''))
        self.assertEqual(self.drawn_in(self.folder, environment(DVIPBM_FONTS='')), MISSING)

    def test_a_word_that_is_not_utf_8(self):
        self.assertEqual(called(env=environment() | {'DVIPBM_FONTS': b'\xff'}), (10, b'', ''))


@needs_program
class Arguments(unittest.TestCase):
    def drawn(self, *words, data=RULE):
        return called(words=words, stdin=held(data), env=environment(DVIPBM_FONTS=SAMPLE))

    def test_arguments_that_are_no_command_line(self):
        for words in (['--help'], [''], ['page.dvi'], ['--'], ['--res'], ['--res', '0'], ['--res=4801'], ['--res=+300'], ['--width', '00000001'],
                      ['--trace=1'], ['--workers', '33'], ['--trace', '--trace'], ['--cache', '0000000016'],
                      ['--room'], ['--room='], ['--room=-1'], ['--room', '2147483649'], ['--room=00000000006'], ['--room=6', '--room=6'],
                      ['--summ'], ['--sample', '0'], ['--sample=1001']):
            self.assertEqual(self.drawn(*words), (1, b'', 'dvipbm: usage\n'), words)

    def test_an_argument_that_is_not_utf_8(self):
        self.assertEqual(called(words=[b'\xff']), (10, b'', ''))

    def test_a_sheet(self):
        """The rule has sides of 16 points, 67 dots at 300 to the inch, and its lower left dot stands at the origin."""
        row = b'\xff' * 8 + b'\xe0\x00'
        wanted = (0, b'P4\n80 70\n' + 67 * row + bytes(30), '')
        self.assertEqual(self.drawn('--width', '80', '--height=70', '--left', '0', '--top=66'), wanted)
        self.assertEqual(self.drawn('--top=66', '--workers=32', '--left=0000', '--height', '70', '--cache=256', '--width=80'), wanted)

    def test_a_resolution(self):
        """At 600 the sheet has twice the sides and margins, and the rule 133 dots a side."""
        status, out, notes = self.drawn('--res', '600')
        head = b'P4\n5100 6600\n'
        rows = [out[len(head) + 638 * y:][:638] for y in range(6600)]
        black = [(y, x) for y in (467, 468, 600, 601) for x in (599, 600, 732, 733) if rows[y][x // 8] & 0x80 >> x % 8]
        self.assertEqual((status, notes, len(out), out[:len(head)]), (0, '', len(head) + 638 * 6600, head))
        self.assertEqual(black, [(468, 600), (468, 732), (600, 600), (600, 732)])

    def test_workers_write_the_same(self):
        data = document([b'\xabT', b'\x89\x00\x10\x00\x00\x00\x10\x00\x00', b'', b'\xabTT', b'\xabT'], definition(0))
        one = self.drawn(data=data)
        self.assertEqual((one[0], one[1].count(PAGE), one[2]), (0, 5, ''))
        for workers in ('2', '3', '32'):
            self.assertTrue(self.drawn('--workers', workers, data=data) == one)

    def test_trace_and_summary(self):
        status, out, notes = self.drawn('--summary', '--trace', data=document([b'\xabT', b'\xabT'], definition(0)))
        black = sum(byte.bit_count() for page in out.split(PAGE) for byte in page)
        self.assertEqual((status, notes.splitlines()), (0, [
            f'1 look {KEY} claimed', f'1 fill {KEY} evict -', f'1 look {KEY} hit',
            'pages 2', 'looks 2', 'hits 1', 'claims 1', 'busy 0', 'evictions 0', 'releases 0', 'loads 3', f'black {black}']))
        self.assertGreater(black, 0)

    def test_a_fault_comes_last(self):
        with tempfile.TemporaryDirectory() as folder:
            ended = called(words=['--trace', '--summary'], stdin=held(LETTER), env=environment(DVIPBM_FONTS=folder))
        self.assertEqual((ended[:2], ended[2].splitlines()), ((4, b''), [
            f'1 look {KEY} claimed', f'1 fill {KEY} evict -',
            'pages 0', 'looks 1', 'hits 0', 'claims 1', 'busy 0', 'evictions 0', 'releases 0', 'loads 1', 'black 0', MISSING[2].rstrip()]))

    def test_a_sample(self):
        """Page i has 1 + i mod 3 lines of 52 black dots and 20 more. A folder for an input and a file for a folder of fonts aren't used."""
        with tempfile.TemporaryDirectory() as folder:
            descriptor = os.open(folder, os.O_RDONLY)
            status, out, notes = called(words=['--sample', '3', '--summary'], stdin=descriptor, env=environment(DVIPBM_FONTS=f'{SAMPLE}/drawn12.tfm'))
            os.close(descriptor)
        black = [sum(byte.bit_count() for byte in page) for page in out.split(PAGE)[1:]]
        self.assertEqual((status, black, notes.splitlines()), (0, [124, 176, 72], [
            'pages 3', 'looks 54', 'hits 51', 'claims 3', 'busy 0', 'evictions 0', 'releases 0', 'loads 8', 'black 372']))

    def test_a_run_without_a_cache_has_its_line_alone(self):
        self.assertEqual(self.drawn('--trace', '--summary', data=b''), (2, b'', 'dvipbm: document: truncated at 0\n'))


def glyphs_of(name):
    """The width and height of each glyph of a PK file of the sample's, by its code; its packets have the short form, and it has no specials."""
    with open(f'{SAMPLE}/{name}.300pk', 'rb') as file:
        text = file.read()
    at, found = 19 + text[2], {}
    while text[at] < 240:
        assert text[at] % 8 < 4, name
        found[text[at + 2]] = text[at + 7], text[at + 8]
        at += 3 + (text[at] % 4 * 256 + text[at + 1])
    return found


def calls_of(looks, weights, room):
    """What a cache with so much room does at these looks, as a trace prints it. It is large enough for all fonts."""
    kept, lines = [], []  # the font used longest ago first
    for font in looks:
        if font in kept:
            kept.append(kept.pop(kept.index(font)))
            lines.append(f'1 look {font} hit')
        elif weights[font] > room:
            lines += [f'1 look {font} claimed', f'1 fill {font} not kept']
        else:
            kept.append(font)
            gone = []
            while sum(weights[one] for one in kept) > room:
                gone.append(kept.pop(0))
            lines += [f'1 look {font} claimed', f'1 fill {font} evict {", ".join(gone) or "-"}']
    return lines


@needs_program
class Room(unittest.TestCase):
    """A document in the sample's four fonts, over a cache with more and less room for them."""
    FONTS = {'drawn12': (786432, b'T'), 'drawn8': (524288, b'1'), 'slant12': (786432, b'a'), 'slant8': (524288, b'r')}
    PAGES = (0, 1, 2, 3), (3, 0), (1, 2), (0, 3, 0)

    def setUp(self):
        keys = {name: f'{name} {size} {size}' for name, (size, _) in self.FONTS.items()}
        self.weights = {key: sum(height * ((width + 7) // 8) for width, height in glyphs_of(name).values()) for name, key in keys.items()}
        self.looks = [list(keys.values())[font] for page in self.PAGES for font in page]
        letters = [bytes([171 + font]) + letter for font, (_, letter) in enumerate(self.FONTS.values())]
        fonts = b''.join(definition(font, name.encode(), size, size) for font, (name, (size, _)) in enumerate(self.FONTS.items()))
        self.data = document([b''.join(letters[font] for font in page) for page in self.PAGES], fonts)

    def drawn(self, *words):
        return called(words=['--trace', '--summary', *words], stdin=held(self.data), env=environment(DVIPBM_FONTS=SAMPLE))

    def rooms(self):
        """None; one byte too few for each font, and enough; for all but a byte, and for all."""
        each = sorted(self.weights.values())
        return [0, *(room for weight in each for room in (weight - 1, weight)), sum(each) - 1, sum(each), 2147483648]

    def test_the_calls_are_those_of_a_cache_with_this_room(self):
        for room in self.rooms():
            notes = self.drawn(f'--room={room}')[2].splitlines()
            wanted = calls_of(self.looks, self.weights, room)
            evicted = sum(line.split(' evict ')[1].count(', ') + 1 for line in wanted if ' evict ' in line and not line.endswith(' -'))
            claims = sum(line.endswith(' claimed') for line in wanted)
            self.assertEqual(notes[:-9], wanted, room)
            self.assertEqual(notes[-6:-1], [f'claims {claims}', 'busy 0', f'evictions {evicted}', 'releases 0', f'loads {3 * claims}'], room)

    def test_the_pages_are_the_same(self):
        whole = self.drawn()
        self.assertEqual((whole[0], whole[1].count(PAGE)), (0, 4))
        for room in self.rooms():
            for workers in ('1', '4'):
                self.assertTrue(self.drawn('--room', str(room), '--workers', workers)[:2] == whole[:2], (room, workers))

    def test_less_room_reads_more(self):
        each = sorted(self.weights.values())
        counts = [dict(line.split() for line in self.drawn(f'--room={room}')[2].splitlines()[-9:]) for room in (sum(each), sum(each) - 1, each[-1], 0)]
        loads, evicted = ([int(count[name]) for count in counts] for name in ('loads', 'evictions'))
        self.assertTrue(3 * len(each) == loads[0] < loads[1] <= loads[2] <= loads[3] == 3 * len(self.looks), loads)
        self.assertTrue(0 == evicted[0] < evicted[1] < evicted[2] and evicted[3] == 0, evicted)


@needs_program
class Input(unittest.TestCase):
    FAILED = (6, b'', 'dvipbm: input failed\n')

    def test_a_folder(self):
        with tempfile.TemporaryDirectory() as folder:
            descriptor = os.open(folder, os.O_RDONLY)
            self.assertEqual(called(stdin=descriptor), self.FAILED)
            os.close(descriptor)

    def test_one_that_is_closed(self):
        self.assertEqual(called(stdin=None, preexec_fn=lambda: os.close(0)), self.FAILED)

    def test_one_that_is_open_for_writing_only(self):
        descriptor = os.open('/dev/null', os.O_WRONLY)
        self.assertEqual(called(stdin=descriptor), self.FAILED)
        os.close(descriptor)

    def test_a_pipe_that_does_not_block_and_is_empty(self):
        reader, writer = os.pipe()
        os.set_blocking(reader, False)
        self.assertEqual(called(stdin=reader), self.FAILED)
        os.close(reader)
        os.close(writer)

    def test_a_pipe_in_pieces(self):
        reader, writer = os.pipe()

        def write():
            for byte in RULE:
                os.write(writer, bytes([byte]))
            os.close(writer)

        thread = threading.Thread(target=write)
        thread.start()
        status, out, notes = called(stdin=reader)
        thread.join()
        os.close(reader)
        self.assertEqual((status, out[:len(PAGE)], notes), (0, PAGE, ''))


@needs_program
class Output(unittest.TestCase):
    FAILED = (7, 'dvipbm: page 1: output failed\n')

    def test_a_device_that_is_full(self):
        with open('/dev/full', 'wb') as full:
            self.assertEqual(called(stdin=held(RULE), stdout=full)[::2], self.FAILED)

    def test_one_that_is_closed(self):
        self.assertEqual(called(stdin=held(RULE), stdout=None, preexec_fn=lambda: os.close(1))[::2], self.FAILED)

    def test_one_that_is_open_for_reading_only(self):
        with open('/dev/null', 'rb') as null:
            self.assertEqual(called(stdin=held(RULE), stdout=null)[::2], self.FAILED)

    def test_a_pipe_that_does_not_block_and_fills(self):
        reader, writer = os.pipe()
        os.set_blocking(writer, False)
        self.assertEqual(called(stdin=held(RULE), stdout=writer)[::2], self.FAILED)
        os.close(writer)
        with open(reader, 'rb') as pipe:
            self.assertEqual(pipe.read()[:len(PAGE)], PAGE)

    def test_a_pipe_whose_reader_has_gone(self):
        for handler in (signal.SIG_DFL, signal.SIG_IGN):
            reader, writer = os.pipe()
            os.close(reader)
            ended = called(stdin=held(RULE), stdout=writer, restore_signals=False, preexec_fn=lambda it=handler: signal.signal(signal.SIGPIPE, it))
            os.close(writer)
            self.assertEqual(ended[::2], self.FAILED)

    def test_a_limit_on_the_length_of_files(self):
        def limit(handler):
            signal.signal(signal.SIGXFSZ, handler)
            resource.setrlimit(resource.RLIMIT_FSIZE, (1_500_000, 1_500_000))
            resource.setrlimit(resource.RLIMIT_CORE, (0, 0))

        for handler, wanted in ((signal.SIG_DFL, (-signal.SIGXFSZ, '')), (signal.SIG_IGN, (7, 'dvipbm: page 2: output failed\n'))):
            with tempfile.TemporaryFile() as file:
                ended = called(stdin=held(BLANKS), stdout=file, restore_signals=False, preexec_fn=lambda it=handler: limit(it))
                self.assertEqual((ended[::2], file.seek(0, os.SEEK_END)), (wanted, 1_500_000))


@needs_program
class Notes(unittest.TestCase):
    def test_notes_that_fail_change_no_fault(self):
        for data, status in ((b'', 2), (LETTER[:-1], 2), (document(b'a'), 3), (RULE, 0)):
            with open('/dev/full', 'wb') as full:
                self.assertEqual(called(stdin=held(data), stderr=full)[0], status)

    def test_a_summary_that_fails(self):
        with open('/dev/full', 'wb') as full:
            ended = called(words=['--summary'], stdin=held(RULE), stderr=full)
        self.assertEqual(ended[:2], (8, run(RULE)[1]))

    def test_notes_that_are_closed(self):
        self.assertEqual(called(stdin=held(b''), stderr=None, preexec_fn=lambda: os.close(2))[:2], (2, b''))

    def test_nothing_is_noted_where_all_went_well(self):
        self.assertEqual(run(RULE)[::2], (0, ''))

    def test_a_line_is_whole(self):
        self.assertEqual(run(b''), (2, b'', 'dvipbm: document: truncated at 0\n'))


@needs_program
class Memory(unittest.TestCase):
    def test_a_document_larger_than_the_memory(self):
        limit = lambda: resource.setrlimit(resource.RLIMIT_AS, (48 << 20, 48 << 20))
        data = document(b'', filler=b'\xdf' * (60 << 20))
        self.assertEqual(called(stdin=held(data), preexec_fn=limit), (9, b'', 'dvipbm: out of memory\n'))


@needs_program
@unittest.skipUnless(os.path.exists('/proc/self/task'), 'no /proc tells how many threads a process has')
class Threads(unittest.TestCase):
    def most_threads(self, workers, wanted):
        """How many threads a run on one processor has at most, while nobody reads its pages: at the latest when it has those wanted."""
        how = {'stdin': held(document([b'\xabT'] * 32, definition(0))), 'stdout': subprocess.PIPE, 'stderr': subprocess.DEVNULL}
        how |= {'env': environment(DVIPBM_FONTS=SAMPLE), 'preexec_fn': lambda: os.sched_setaffinity(0, [min(os.sched_getaffinity(0))])}
        seen, end = [], time.monotonic() + 20
        with subprocess.Popen([PROGRAM, '--workers', str(workers)], **how) as process:
            while len(seen) < 20 or max(seen) < wanted and time.monotonic() < end:
                time.sleep(0.02)
                seen.append(len(os.listdir(f'/proc/{process.pid}/task')))
            process.kill()
        how['stdin'].close()
        return max(seen)

    def test_more_than_eight_workers_share_the_processors(self):
        # (who takes the pages has a thread too)
        for workers, wanted in (1, 1), (2, 3), (8, 9), (9, 2), (32, 2):
            with self.subTest(workers=workers):
                self.assertEqual(self.most_threads(workers, wanted), wanted)


if __name__ == '__main__':
    unittest.main()
