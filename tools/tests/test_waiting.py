"""How the seats of a turn lock wait: every order of their steps, as tools/waiting_model.py has them, and bugs that it is to find; and the real lock,
of which one wake is lost."""
import os, shutil, subprocess, sys, tempfile, unittest
from common import TOP

sys.path.insert(0, f'{TOP}/tools')
import waiting_model


class Waiting(unittest.TestCase):
    def test_no_wake_is_lost(self):
        count, stuck = waiting_model.explore()
        self.assertEqual(stuck, [])
        self.assertGreater(count, 300_000)

    def test_each_bug_is_found(self):
        for bug in waiting_model.BUGS:
            with self.subTest(bug):
                shared, seats = waiting_model.explore(bug, first_stuck=True)[1][0]
                asleep = [seat for seat in seats if seat.step in waiting_model.ASLEEP]
                self.assertTrue(asleep)
                self.assertEqual([seat.step for seat in seats if seat not in asleep], ['end'] * (len(seats) - len(asleep)))

    def test_the_program_names_its_bugs(self):
        ran = subprocess.run([sys.executable, 'tools/waiting_model.py', 'no', 'such', 'bug'], cwd=TOP, capture_output=True, text=True)
        self.assertEqual((ran.returncode, len(ran.stdout.splitlines())), (2, 1 + len(waiting_model.BUGS)))

    def test_the_steps_are_those_of_the_lock(self):
        """The calls of the code that the model has as steps, in their order."""
        def calls(file, name):
            with open(os.path.join(TOP, 'crates/turn_lock/src', file), encoding='utf-8') as text:
                body = text.read().split(f'fn {name}', 1)[1].split('\n    }\n', 1)[0]
            words = ('is_free_soon', 'announce', 'mark', 'is_taken', 'peek(SERVING)', 'sleep_until_called', 'sleep_at', 'come', 'leave', 'are_none', 'wake', 'call')
            found = [(body.find(f'.{word}' if '(' in word else f'.{word}('), word) for word in words]
            return [word for at, word in sorted(found) if at >= 0]

        self.assertEqual(calls('waiting.rt', 'approach'), ['is_free_soon', 'announce', 'is_taken', 'sleep_until_called', 'come'])
        self.assertEqual(calls('waiting.rt', 'sleep_in_line'), ['announce', 'mark', 'peek(SERVING)', 'sleep_at', 'leave'])
        self.assertEqual(calls('waiting.rt', 'wake'), ['are_none', 'wake', 'is_taken', 'call'])


@unittest.skipUnless(shutil.which('rt'), 'not installed: rt')
class LostWake(unittest.TestCase):
    CALL = '            self.called.wake_one();\n'
    LATE = 'test tests::turns::late::a_turn_given_late ... '

    def test_a_lost_wake_fails_its_test(self):
        """`rt try` proves nothing, so that a bug costs a minute of a processor. Each of the 2000 times costs a sleep of 50 milliseconds then,
        100 seconds in all, however fast the machine is, and the test has 20."""
        with tempfile.TemporaryDirectory() as room:
            for name in ('crates.txt', 'HANDLES'):
                shutil.copy(os.path.join(TOP, name), room)
            shutil.copytree(f'{TOP}/crates', f'{room}/crates', ignore=shutil.ignore_patterns('out', 'proofs', 'must-fail', 'more-bugs'))
            place = f'{room}/crates/turn_lock/src/sleepers.rt'
            with open(place, encoding='utf-8') as file:
                good = file.read()
            self.assertEqual(good.count(self.CALL), 1)
            with open(place, 'w', encoding='utf-8') as file:
                file.write(good.replace(self.CALL, ''))
            ran = subprocess.run(['rt', 'try', '--test', '--seconds', '20'], cwd=f'{room}/crates/seat_tests', stdin=subprocess.DEVNULL,
                                 stdout=subprocess.PIPE, stderr=subprocess.STDOUT, text=True)
        self.assertEqual([line for line in ran.stdout.splitlines() if line.startswith(self.LATE)], [f'{self.LATE}FAILED'], ran.stdout)


if __name__ == '__main__':
    unittest.main()
