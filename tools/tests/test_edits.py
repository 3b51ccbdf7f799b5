"""tools/try-more-bugs and tools/gate-cost, over a made repository with a made rt, and that each edit of this one can be planted."""
import glob, importlib.machinery, importlib.util, os, re, shutil, signal, subprocess, tempfile, time, unittest

from common import TOP

# An rt that refuses a crate whose text says "wrong", and waits where it says "slow".
RT = """#!/bin/sh
grep -q slow src/lib.rt && { touch "$STARTED"; sleep 60; }
grep -q unreadable src/lib.rt && { echo 'error: what is this?'; exit 1; }
grep -q wrong src/lib.rt && { echo 'note: src/lib.rt:1:1: `returns-clause-value`'; echo logic=not-proved; exit 1; }
echo logic=proved
"""


def loaded(tool):
    loader = importlib.machinery.SourceFileLoader(tool.replace('-', '_'), f'{TOP}/tools/{tool}')
    module = importlib.util.module_from_spec(importlib.util.spec_from_loader(loader.name, loader))
    loader.exec_module(module)
    return module


class Made(unittest.TestCase):
    def setUp(self):
        self.room = tempfile.mkdtemp()
        self.addCleanup(shutil.rmtree, self.room)
        for name, text in {'crates.txt': 'one:\n', 'HANDLES': '', 'bin/rt': RT, 'temporary/.keep': '', 'crates/one/src/lib.rt': 'right\n'}.items():
            self.write(name, text)
        for tool in 'try-more-bugs', 'gate-cost':
            os.makedirs(f'{self.room}/tools', exist_ok=True)
            shutil.copy(f'{TOP}/tools/{tool}', f'{self.room}/tools')
        os.chmod(f'{self.room}/bin/rt', 0o755)
        self.environment = {**os.environ, 'PATH': f"{self.room}/bin:{os.environ['PATH']}", 'TMPDIR': f'{self.room}/temporary',
                            'STARTED': f'{self.room}/started'}

    def write(self, name, text):
        os.makedirs(os.path.dirname(f'{self.room}/{name}'), exist_ok=True)
        with open(f'{self.room}/{name}', 'w', encoding='utf-8') as file:
            file.write(text)

    def edit(self, name, new, folder='more-bugs'):
        self.write(f'crates/one/{folder}/{name}.edit', f'file: src/lib.rt\nold: right\nnew: {new}\n')

    def start(self, *words):
        return subprocess.Popen([f'{self.room}/tools/{words[0]}', *words[1:]], cwd=self.room, env=self.environment, stdout=subprocess.PIPE,
                                stderr=subprocess.STDOUT, text=True)

    def said_by(self, *words):
        ran = self.start(*words)
        said, _ = ran.communicate()
        return ran.returncode, said


class MoreBugs(Made):
    def test_says_what_was_refused_and_what_not(self):
        self.edit('a_bug', 'wrong')
        refused = 'more-bugs one/a_bug.edit: refused, as it must be: note: src/lib.rt:1:1: `returns-clause-value`\n'
        self.assertEqual(self.said_by('try-more-bugs'), (0, f'{refused}try-more-bugs: 1 bugs, 0 not refused\n'))
        for new, said in ('the same', 'NOT REFUSED: '), ('unreadable', 'BAD EDIT: it did not reach the prover'):
            self.edit('other', new)
            status, text = self.said_by('try-more-bugs', 'one')
            self.assertEqual((status, text.count(refused), text.count(f'more-bugs one/other.edit: {said}')), (1, 1, 1), text)

    def test_tries_a_file_alone(self):
        self.edit('a_bug', 'the same')
        self.edit('other', 'wrong', 'must-fail')
        status, text = self.said_by('try-more-bugs', 'crates/one/must-fail/other.edit')
        self.assertEqual((status, text.count('must-fail one/other.edit: refused')), (0, 1), text)

    def test_what_is_not_proved_without_a_bug_is_told(self):
        self.edit('a_bug', 'wrong')
        self.write('crates/one/src/lib.rt', 'right, but wrong\n')
        status, text = self.said_by('try-more-bugs')
        self.assertEqual((status, text.splitlines()[0]), (1, 'one is not proved, so its bugs were not tried:'))

    def test_a_crate_is_tried_over_those_below_it_as_they_are(self):
        self.write('bin/rt', RT.replace('src/lib.rt &&', '../*/src/lib.rt &&'))
        self.write('crates/two/src/lib.rt', 'right\n')
        self.edit('a_bug', 'wrong')
        self.write('crates/two/more-bugs/a_bug.edit', 'file: src/lib.rt\nold: right\nnew: wrong\n')
        status, text = self.said_by('try-more-bugs')
        self.assertEqual((status, text.count('refused, as it must be')), (0, 2), text)

    def test_leaves_nothing_behind_where_it_is_interrupted(self):
        self.edit('a_bug', 'slow')
        for number in signal.SIGINT, signal.SIGTERM:
            ran = self.start('try-more-bugs')
            while not os.path.exists(self.environment['STARTED']) and ran.poll() is None:
                time.sleep(0.05)
            self.assertEqual(len(os.listdir(f'{self.room}/temporary')), 2)
            os.remove(self.environment['STARTED'])
            ran.send_signal(number)
            ran.communicate()
            self.assertEqual((ran.returncode, os.listdir(f'{self.room}/temporary')), (128 + number, ['.keep']))

    def test_each_edit_can_be_planted(self):
        tool, bad = loaded('try-more-bugs'), []
        for edit in sorted(glob.glob(f'{TOP}/crates/*/m*/*.edit')):
            with open(edit, encoding='utf-8') as file:
                named = re.findall('^file: (.*)', file.read(), re.M)
            for name in named:
                os.makedirs(os.path.dirname(f'{self.room}/{name}'), exist_ok=True)
                shutil.copy(f'{os.path.dirname(os.path.dirname(edit))}/{name}', f'{self.room}/{name}')
            bad += [f'{edit}: {why}' for why in [tool.plant(edit, self.room)] if why]
        self.assertEqual(bad, [])

    def test_no_bug_stands_in_both_folders(self):
        for crate in glob.glob(f'{TOP}/crates/*'):
            names = [{os.path.basename(edit) for edit in glob.glob(f'{crate}/{folder}/*.edit')} for folder in ('must-fail', 'more-bugs')]
            self.assertEqual(names[0] & names[1], set(), crate)


class GateCost(Made):
    def test_counts_what_a_function_has_and_how_often_its_crate_is_proved(self):
        for name, size in ('f.Lts', 2_000_000), ('f.Proof', 500_000), ('f.inner.Lts', 300_000), ('g.Lts', 100_000), ('Links', 100_000):
            self.write(f'crates/one/out/incremental/kept/Rattle-one-proofs.{name}.oantt', ' ' * size)
        self.write('crates/one/out/incremental/kept/records/Rattle-one-proofs.f.Proof.decls.oantt', ' ' * 500_000)
        functions = '     3.0 MB  one f\n     0.3 MB  one f.inner\n     0.1 MB  one g\n'
        self.assertEqual(self.said_by('gate-cost'), (0, f'     3.5 MB, proved 1 times, 0 edits  one\n{functions}'))
        for name in 'a_bug', 'other':
            self.edit(name, 'wrong', 'must-fail')
        self.write('crates/one/src/tests.rt', '#[test]\n')
        self.write('said', 'rt: must-fail one/a_bug.edit: refused, as it must be\nrt: must-fail one/other.edit: NOT REFUSED: it is proved\n')
        line = '     3.5 MB, proved 3 times, 2 edits  one, refused 1 of 2\n'
        self.assertEqual(self.said_by('gate-cost', 'said'), (0, f'{line}{functions}'))
