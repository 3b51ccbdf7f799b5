"""The recipe that spools a folder: what it asks of dvispool, what it says of documents that fail, and what it leaves."""
import os, shutil, stat, subprocess, unittest

from common import PROGRAM, RECIPES, SAMPLE, SPOOL, document, environment_of, needs_program, needs_spool, run
from spools import OLD, UNITS, Rooms, sixteen, whole

# In the place of dvispool: notes its numbers and names, copies a document whose first byte isn't x, and says so; and of dvipbm.
STAND_IN = '''#!/bin/sh
echo "$*" >>"$ASKED"
shift 3
job=0
while [ $# -gt 0 ]; do
  job=$((job + 1)) status=0
  if [ "$(head -c 1 "$1")" = x ]; then status=3; printf part >"$2"; else cat "$1" >"$2"; fi
  echo "job $job status $status" >&2
  shift 2
done
printf 'looks 1\\nhits 0\\nloads 3\\n' >&2
'''
REFUSES = '#!/bin/sh\ncat >/dev/null\necho "dvipbm: page 1 at 62: stack empty" >&2\nexit 3\n'


class Recipe(Rooms):
    def setUp(self):
        super().setUp()
        os.mkdir(self.path('day'))
        for name, text in (('dvispool', STAND_IN), ('dvipbm', REFUSES)):
            self.write(name, text.encode())
            os.chmod(self.path(name), stat.S_IRWXU)

    def called(self, *words, **more):
        environment = environment_of(self.room, **{'DVIPBM': self.path('dvipbm'), 'DVISPOOL': self.path('dvispool'), 'ASKED': self.path('asked'), **more})
        ran = subprocess.run([f'{RECIPES}/spool', *words], cwd=self.room, env=environment, stdin=subprocess.DEVNULL, capture_output=True, text=True, timeout=600)
        self.assertNotIn('Traceback', ran.stderr)
        return ran.returncode, ran.stderr.splitlines()

    def test_sixteen_a_run(self):
        for number in range(35):
            self.write(f'day/{number:02} x.dvi', document([b''] * (number % 3), **UNITS))
        self.write('day/text', b'no document')
        os.mkdir(self.path('day/pages.dvi'))
        self.assertEqual(self.called('day', 'fonts', '0600', '4')[0], 0)
        found = [line.split(' day/') for line in self.read('asked').decode().splitlines()]
        self.assertEqual([(words[0], len(words) // 2) for words in found], [('600 4 64', 16), ('600 4 64', 16), ('600 4 64', 3)])
        for number in range(35):
            self.assertEqual(self.read(f'day/{number:02} x.pbm'), self.read(f'day/{number:02} x.dvi'))
        self.assertEqual(len(os.listdir(self.path('day'))), 72)

    def test_one_that_fails(self):
        self.write('day/a.dvi', document([b''], **UNITS))
        self.write('day/b.dvi', b'x')
        self.write('day/b.pbm', OLD)
        status, said = self.called('day', 'fonts')
        self.assertEqual((status, said[-1]), (1, 'day/b.dvi: no pages: status 3 (dvipbm: page 1 at 62: stack empty)'))
        self.assertEqual(sorted(os.listdir(self.path('day'))), ['a.dvi', 'a.pbm', 'b.dvi'])

    def test_a_run_that_says_nothing(self):
        self.write('day/a.dvi', document([b''], **UNITS))
        self.write('day/a.pbm', OLD)
        self.write('dvispool', b'#!/bin/sh\nexit 9\n')
        status, said = self.called('day', 'fonts')
        self.assertEqual((status, said[-1]), (1, 'day/a.dvi: no pages: dvispool ended with 9'))
        self.assertEqual(os.listdir(self.path('day')), ['a.dvi'])

    def test_what_is_refused(self):
        usage = 'usage: docs/recipes/spool FOLDER FONTS [RES [WORKERS [CACHE]]]'
        for words, more, status, line in (
            ([], {}, 64, usage), (['day'], {}, 64, usage), (['day', 'f', '1', '1', '1', '1'], {}, 64, usage),
            (['day', 'f', '4801'], {}, 64, 'spool: --res 4801: dvipbm takes 1 to 4800 dots to the inch'),
            (['day', 'f', '300', '33'], {}, 64, 'spool: 33: dvispool draws 1 to 32 pages at a time'),
            (['day', 'f', '300', '1', '0'], {}, 64, 'spool: 0: dvispool keeps 1 to 256 fonts ready'),
            (['day', 'f', '300', 'x'], {}, 64, 'spool: --workers x: not a whole number of at most seven digits'),
            (['none', 'f'], {}, 66, 'spool: none: there is no such folder'), (['day', 'f'], {}, 66, 'spool: day: there is no DVI document'),
            (['day', 'f'], {'DVISPOOL': '/nowhere/dvispool'}, 69,
             'spool: there is no /nowhere/dvispool: run make in the repository, or name the program by DVISPOOL'),
        ):
            self.assertEqual(self.called(*words, **more), (status, [line]), words)
        self.assertEqual((os.listdir(self.path('day')), self.read('asked')), ([], None))

    @needs_program
    @needs_spool
    def test_with_the_programs_themselves(self):
        """The fonts lie in the folder already."""
        documents, _, _ = sixteen()
        for number, data in enumerate([*documents, whole([(0,)])]):
            self.write(f'day/{number:02}.dvi', data)
        self.write('day/none.dvi', document([], **UNITS))
        self.write('day/stack.dvi', document([b'\x8e'], **UNITS))
        fonts = self.path('fonts')
        os.mkdir(fonts)
        for name in os.listdir(SAMPLE):
            if name.endswith(('300pk', 'tfm')):
                shutil.copy(f'{SAMPLE}/{name}', fonts)
        status, said = self.called('day', 'fonts', '300', '2', DVIPBM=PROGRAM, DVISPOOL=SPOOL)
        self.assertEqual((status, said[-1]), (1, 'day/stack.dvi: no pages: status 3 (dvipbm: page 1 at 60: stack empty)'), said)
        for number, data in enumerate([*documents, whole([(0,)])]):
            self.assertTrue(self.read(f'day/{number:02}.pbm') == run(data)[1], number)
        self.assertEqual((self.read('day/none.pbm'), self.read('day/stack.pbm')), (b'', None))


if __name__ == '__main__':
    unittest.main()
