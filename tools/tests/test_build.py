"""What tools/build prints, over a program in the place of rt; and what the Makefile installs and removes."""
import os, re, shutil, subprocess, tempfile, unittest

from common import TOP

RT = r'''#!/bin/sh
echo "$*" >> "$ASKED"
if [ "$1" = run ]; then
  cat > /dev/null
  name=${PWD##*/}
  case " $LINKS " in *" $name "*) mkdir -p out; echo program > out/$name; chmod +x out/$name; exit 0 ;; esac
  echo 'ld: no such symbol' >&2; exit 1
fi
if [ -n "$MENDS" ]; then echo "low.rt:3: error"; echo 'rt: mend these first: no library was built'; exit 1; fi
for crate in low high; do
  if [ "$crate" = "$FAILS" ]; then printf '== %s\nfn high::f: not proved\n' $crate; break; fi
  mkdir -p crates/$crate/out/rlib; echo > crates/$crate/out/rlib/stamp
  printf '== %s\nmany lines\nof %s\n' $crate $crate
done
if [ -n "$FAILS" ]; then printf '== summary\nlow: ok\nhigh: failed (1)\n'; exit 1; fi
if [ -n "$SIDE" ]; then printf '== side\nmany lines\nlogic=proved functions=1\n'; fi
printf '== dvipbm\nlogic=proved\n== dvispool\nlogic=proved\n== summary\n4 of 4 crates ok\n'
'''

BOTH = 'dvipbm dvispool'


class Build(unittest.TestCase):
    def setUp(self):
        self.top = tempfile.mkdtemp()
        self.addCleanup(shutil.rmtree, self.top)
        for folder in ('tools', 'docs/sample', 'docs/man', 'docs/recipes', 'bin', 'crates/dvipbm', 'crates/dvispool', 'crates/low', 'crates/high'):
            os.makedirs(f'{self.top}/{folder}')
        for file in ('tools/build', 'tools/collect-fonts', 'Makefile', 'VERSION', 'docs/man/dvipbm.1', 'docs/man/dvispool.1', 'docs/sample/sample.dvi', 'docs/recipes/tools.sh'):
            shutil.copy(f'{TOP}/{file}', f'{self.top}/{file}')
        self.write('crates.txt', '# what stands on what\nlow:\nhigh may_wait=3: low\ndvipbm: high\ndvispool: high\n')
        self.write('bin/rt', RT)
        os.chmod(f'{self.top}/bin/rt', 0o755)

    def write(self, name, text):
        with open(f'{self.top}/{name}', 'w') as file:
            file.write(text)

    def read(self, name):
        with open(f'{self.top}/{name}') as file:
            return file.read()

    def called(self, *words, **given):
        environment = dict(os.environ, ASKED=f'{self.top}/asked', PATH=f'{self.top}/bin:{os.environ["PATH"]}', **given)
        for word in ('MAKEFLAGS', 'MAKELEVEL', 'JOBS', 'PREFIX', 'DESTDIR'):
            environment.pop(word, None)
        ran = subprocess.run(words, cwd=self.top, env=environment, stdin=subprocess.DEVNULL, capture_output=True, text=True)
        return ran.returncode, ran.stdout, ran.stderr

    def test_a_line_for_each_crate(self):
        status, said, _ = self.called('tools/build', '2', LINKS=BOTH)
        lines = said.split('\n')
        self.assertEqual((status, lines[1:4]), (0, ['1 of 4: low proved before', '2 of 4: high proved before', '3 of 4: dvipbm proved before']))
        # (how long it took is the machine's)
        self.assertEqual([re.sub(r'\d+ s$', 'N s', line) for line in lines[4:]],
                         ['4 of 4: dvispool proved before', 'crates/dvipbm/out/dvipbm and crates/dvispool/out/dvispool are built, N s', ''])
        self.assertEqual(self.read('asked'), f'all check --jobs 2\nrun\nrun -- 300 1 16 {self.top}/docs/sample/sample.dvi {os.devnull}\n')

    def test_a_library_that_nothing_stands_on_is_proved_and_not_built(self):
        self.write('crates.txt', 'low:\nhigh: low\nside: low\ndvipbm: high\n')
        status, said, _ = self.called('tools/build', SIDE='yes', LINKS='dvipbm')
        self.assertEqual((status, said.split('\n')[3:5]), (0, ['3 of 4: side proved before', '4 of 4: dvipbm proved before']))

    def test_what_the_toolchain_said_of_a_crate_that_failed_alone(self):
        status, said, errors = self.called('tools/build', FAILS='high')
        self.assertEqual((status, said.split('\n')[1:], errors),
                         (1, ['1 of 4: low proved before', 'high failed:', 'fn high::f: not proved', ''], 'tools/build: not built\n'))

    def test_what_the_toolchain_said_before_it_built_anything(self):
        status, said, _ = self.called('tools/build', MENDS='yes')
        self.assertEqual((status, said.split('\n')[1:]), (1, ['low.rt:3: error', 'rt: mend these first: no library was built', '']))

    def test_a_program_that_is_not_linked(self):
        status, said, _ = self.called('tools/build')
        self.assertEqual((status, said.split('\n')[3:]), (1, ['dvipbm failed:', 'ld: no such symbol', '']))
        status, said, _ = self.called('tools/build', LINKS='dvipbm')
        self.assertEqual((status, said.split('\n')[3:]), (1, ['3 of 4: dvipbm proved before', 'dvispool failed:', 'ld: no such symbol', '']))

    def test_without_rt_it_says_so(self):
        os.remove(f'{self.top}/bin/rt')
        os.symlink(shutil.which('python3'), f'{self.top}/bin/python3')
        ran = subprocess.run(['/usr/bin/env', 'python3', 'tools/build'], cwd=self.top, env={'PATH': f'{self.top}/bin'}, capture_output=True, text=True)
        self.assertEqual((ran.returncode, ran.stderr.split(':')[1]), (1, ' no rt on the path'))

    @unittest.skipUnless(shutil.which('make'), 'not installed: make')
    def test_make_installs_and_removes(self):
        status, _, errors = self.called('make', 'install', f'DESTDIR={self.top}/root')
        self.assertIn('there is no crates/dvipbm/out/dvipbm: run make first', errors)
        self.assertEqual(self.called('make', LINKS=BOTH)[0], 0)
        os.remove(f'{self.top}/crates/dvispool/out/dvispool')
        self.assertIn('there is no crates/dvispool/out/dvispool: run make first', self.called('make', 'install', f'DESTDIR={self.top}/root')[2])
        self.assertEqual(self.called('make', LINKS=BOTH)[0], 0)
        self.assertEqual(self.called('make', 'install', f'DESTDIR={self.top}/root', 'PREFIX=/opt/x')[0], 0)
        installed = [f'opt/x/{place}' for place in ('bin/dvipbm', 'bin/dvispool', 'share/man/man1/dvipbm.1', 'share/man/man1/dvispool.1')]
        self.assertEqual([oct(os.stat(f'{self.top}/root/{name}').st_mode & 0o777) for name in installed], ['0o755', '0o755', '0o644', '0o644'])
        self.assertEqual(self.called('make', 'uninstall', f'DESTDIR={self.top}/root', 'PREFIX=/opt/x')[0], 0)
        self.assertEqual([name for name in installed if os.path.exists(f'{self.top}/root/{name}')], [])
        self.assertEqual(self.called('make', 'clean')[0], 0)
        self.assertFalse(os.path.exists(f'{self.top}/crates/dvipbm/out'))


if __name__ == '__main__':
    unittest.main()
