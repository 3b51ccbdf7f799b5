"""The commands of docs/USING.md, in their order, in a fresh folder: each does what the text says of it."""
import os, re, shutil, subprocess, tempfile, unittest

from common import PROGRAM, SPOOL, TOP, environment_of, needs, needs_program, needs_spool

# Programs in the place of those that reach other machines: a printer's queue that keeps what it was given, and machines that are folders.
QUEUE = '#!/bin/sh\necho "$@" >>"$ROOM/printed"\nfor file; do :; done\ncmp "$file" "$file"\n'
MACHINE = '''#!/bin/sh
while [ "${1#-}" != "$1" ]; do case $1 in -l|-p|-o) shift 2;; *) shift;; esac; done
HOME="$ROOM/machines/$1" SHELL=/bin/sh; export HOME SHELL; shift; if [ "$1" = -- ]; then shift; fi
mkdir -p "$HOME"; cd "$HOME"; exec sh -c "$*"
'''


def blocks():
    """The blocks of commands, each with its section."""
    with open(f'{TOP}/docs/USING.md', encoding='utf-8') as file:
        text = file.read()
    found = []
    for section in re.split(r'^## ', text, flags=re.M)[1:]:
        found += [(section.partition('\n')[0], block) for block in re.findall(r'^```\n(.*?)^```$', section, re.S | re.M)]
    return found


@needs_program
@needs_spool
class Using(unittest.TestCase):
    @needs('latex', 'mktexpk', 'mf', 'pamsplit', 'pnmtopng', 'pnmtops', 'gs', 'parallel', 'rsync', 'pamtotiff', 'timeout')
    def test_the_commands_in_their_order(self):
        room = tempfile.mkdtemp()
        self.addCleanup(shutil.rmtree, room)
        fresh, tools = os.path.join(room, 'fresh'), os.path.join(room, 'tools')
        os.mkdir(fresh)
        os.mkdir(tools)
        for name in ('docs', 'tools', 'crates'):
            os.symlink(f'{TOP}/{name}', f'{fresh}/{name}')
        os.symlink(PROGRAM, f'{tools}/dvipbm')
        os.symlink(SPOOL, f'{tools}/dvispool')
        for name, text in (('lp', QUEUE), ('machine', MACHINE)):
            with open(f'{tools}/{name}', 'w') as file:
                file.write(text)
            os.chmod(f'{tools}/{name}', 0o755)
        environment = environment_of(room, ROOM=room, DVIPBM=PROGRAM, DVISPOOL=SPOOL, PARALLEL_SSH=f'{tools}/machine', PATH=f'{tools}:{os.environ["PATH"]}')
        said, sections = {}, []
        for section, block in blocks():
            ran = subprocess.run(['sh', '-euc', block], cwd=fresh, env=environment, stdin=subprocess.DEVNULL, capture_output=True, text=True,
                                 timeout=900)
            self.assertEqual(ran.returncode, 0, f'{section}: {block}\n{ran.stdout}{ran.stderr}')
            said[section] = said.get(section, '') + ran.stdout + ran.stderr
            sections.append(section)
            self.after(section, fresh)
        self.assertGreaterEqual(len(sections), 12)
        self.assertIn('--width 2480 --height 3508\n', said['Sheets'])
        shown = re.search(r'^lost\.dvi: not drawn: .*$', said["What you won't see"], re.M)
        with open(f'{TOP}/docs/USING.md', encoding='utf-8') as file:
            self.assertIn(f'```text\n{shown[0]}\n```', file.read())
        self.assertIn('scaled from 600', said['Fonts'])
        # (where a font is first needed depends on what LaTeX puts at the beginning of a page)
        lacks = re.findall(r'^dvipbm: page \d+ at .*', said['Missing fonts'], re.M)
        with open(f'{TOP}/docs/USING.md', encoding='utf-8') as file:
            shown = re.findall(r'^dvipbm: page \d+ at .*', file.read(), re.M)
        self.assertEqual([re.sub(r' at \d+:', ' at N:', line) for line in lacks], [re.sub(r' at \d+:', ' at N:', line) for line in shown])
        self.assertIn('pages 2\n', said['Long documents'])
        self.assertIn('job 1 status 0\njob 2 status 0\nlooks ', said['A printing system'])
        self.assertEqual(sorted(os.listdir(f'{fresh}/day')), ['lost.dvi', 'lost.pbm', 'story.dvi', 'story.pbm'])
        with open(f'{room}/printed') as file:
            self.assertEqual([line.split()[-1] for line in file], ['story.pdf', 'story.ps', 'story.ras'])

    def after(self, section, folder):
        """Checks what a section's commands left: pages by their heads, other files by their beginnings."""
        wanted = {
            'One page on the screen': {'story-1.png': b'\x89PNG', 'story-2.png': b'\x89PNG', 'story.pbm': b'P4\n2550 3300\n'},
            "What you won't see": {'lost.pbm': b'P4\n2550 3300\n'},
            'Sheets': {'story.pbm': b'P4\n2480 3508\n'},
            '600 dots to the inch': {'fine.pbm': b'P4\n5100 6600\n'},
            'PDF and PostScript': {'story.pbm': b'P4\n2550 3300\n', 'story.pdf': b'%PDF', 'fine.pdf': b'%PDF', 'story.ps': b'%!PS'},
            'A printer': {'story.ras': b''},
            'Fonts': {'fonts/cmr10.tfm': b'', 'story.pbm': b'P4\n2550 3300\n'},
            'Missing fonts': {'rough.pbm': b'P4\n2550 3300\n', 'story.pbm': b'P4\n2550 3300\n', 'few/cmr10.300pk': b''},
            'Long documents': {'story.pbm': b'P4\n2550 3300\n'},
            'A thousand documents': {'thousand/story.pbm': b'P4\n1240 1754\n', 'thousand/lost.pbm': b'P4\n1240 1754\n'},
            'A printing system': {'story.pbm': b'P4\n2550 3300\n', 'lost.pbm': b'P4\n2550 3300\n'},
            'An archive': {'story.tiff': b'', 'pages.list': b'#status'},
            'A queue of CUPS': {'queue.pdf': b'%PDF'},
            'Documents from strangers': {'story.pbm': b'P4\n2550 3300\n', 'pages.list': b'#status'},
            'Several machines': {'story.pbm': b'P4\n2550 3300\n', 'lost.pbm': b'P4\n2550 3300\n'},
        }
        for name, head in wanted.get(section, {}).items():
            with open(os.path.join(folder, name), 'rb') as file:
                data = file.read()
            self.assertTrue(data and data.startswith(head), f'{section}: {name} begins with {data[:20]}')


if __name__ == '__main__':
    unittest.main()
