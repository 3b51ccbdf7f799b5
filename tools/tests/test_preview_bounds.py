"""What bounds a run of the recipe preview, what ends it, and what it says where it can't begin."""
import os, re, signal, socket, subprocess, time, unittest

from test_preview import PATIENCE, PREVIEW, Previews, asking, dotted


def lives(process):
    """Whether a process is there and hasn't ended; one that nobody has taken notice of since its end has."""
    try:
        with open(f'/proc/{process}/stat') as file:
            return file.read().rpartition(')')[2].split()[0] != 'Z'
    except OSError:
        return False


class Bounds(Previews):
    def test_a_run_has_at_most_the_memory_and_the_time_that_are_given(self):
        self.write('a.dvi', asking('bounds'))
        with self.shown('--memory', '345', '--seconds', '543', 'a.dvi') as (address, _):
            self.assertEqual(self.fault(address, 1), '345 543\n')

    def test_without_words_they_are_512_mebibytes_and_60_seconds(self):
        self.write('a.dvi', asking('bounds'))
        process = subprocess.Popen([PREVIEW, 'a.dvi'], cwd=self.room, env=self.environment(), stdin=subprocess.DEVNULL, stdout=subprocess.PIPE,
                                   stderr=subprocess.DEVNULL)
        try:
            self.assertEqual(self.fault(process.stdout.readline().decode().rstrip(), 1), '512 60\n')
        finally:
            process.terminate()
            process.wait(PATIENCE)
            process.stdout.close()

    def test_a_run_that_would_never_end_is_stopped(self):
        for what in ('hang', 'spin'):
            self.write('runs', b'')
            self.write('a.dvi', asking(what))
            with self.shown('--seconds', '1', 'a.dvi') as (address, _):
                self.assertEqual(self.fault(address, 1), 'stopped: a run may take 1 s and 512 MiB\n')
                # (where the machine is slow it may be stopped before it notes its number)
                self.assertEqual([line for line in self.runs_so_far() if lives(int(line))], [])

    def test_a_signal_ends_it_with_what_it_began(self):
        for one in (signal.SIGINT, signal.SIGTERM, signal.SIGHUP):
            self.write('runs', b'')
            self.write('a.dvi', asking('hang'))
            with self.shown('a.dvi') as (address, process):
                with socket.create_connection(('127.0.0.1', int(re.search(r':(\d+)/', address)[1])), timeout=PATIENCE) as waiting:
                    waiting.sendall(f'GET {address[address.index("/", 8):]}page/1 HTTP/1.0\r\n\r\n'.encode())
                    self.until(self.runs_so_far)
                    process.send_signal(one)
                    self.assertEqual(process.wait(PATIENCE), 0)
                self.until(lambda: not lives(int(self.runs_so_far()[0])))

    def until(self, condition):
        last = time.monotonic() + PATIENCE
        while not condition():
            self.assertLess(time.monotonic(), last)
            time.sleep(0.05)


class Beginning(Previews):
    def ended(self, *words, **more):
        ran = subprocess.run([PREVIEW, *words], cwd=self.room, env=self.environment(**more), stdin=subprocess.DEVNULL, capture_output=True, text=True)
        return ran.returncode, ran.stdout, ran.stderr

    def test_each_failure_has_its_status_and_its_line(self):
        self.write('a.dvi', dotted(0))
        self.write('a.tex', b'\\bye')
        self.write('empty.dvi', b'')
        for words, status, line in (
            ([], 64, 'the following arguments are required: document; preview --help says more'),
            (['--seconds', '0', 'a.dvi'], 64, "argument --seconds: '0' is no number from 1 to 86400; preview --help says more"),
            (['a.tex'], 65, 'a.tex: not a DVI file; run tex or latex first'),
            (['empty.dvi'], 65, 'empty.dvi: the file is empty'),
            (['none.dvi'], 66, 'none.dvi: No such file or directory'),
            (['.'], 66, '.: Is a directory'),
        ):
            self.assertEqual(self.ended(*words), (status, '', f'preview: {line}\n'))
        self.assertEqual(self.ended('a.dvi', DVIPBM='/nowhere/dvipbm'), (
            69, '', 'preview: there is no /nowhere/dvipbm: run make in the repository, or name the program by DVIPBM\n'))

    def test_a_port_that_is_taken(self):
        self.write('a.dvi', dotted(0))
        with socket.create_server(('127.0.0.1', 0)) as taken:
            port = taken.getsockname()[1]
            self.assertEqual(self.ended('--port', str(port), 'a.dvi'), (69, '', f'preview: port {port}: Address already in use\n'))

    def test_help(self):
        for word in ('-h', '--help'):
            status, said, errors = self.ended(word)
            self.assertEqual((status, said.split(':')[0], errors), (0, 'preview [--port N] [--seconds S] [--memory MIB] DOCUMENT.dvi [OPTION ..]', ''))


if __name__ == '__main__':
    unittest.main()
