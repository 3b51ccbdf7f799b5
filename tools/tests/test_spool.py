"""dvispool as the system sees it: sixteen documents with one and with four workers, each compared with what dvipbm makes of it alone; what
files that can't be read or written do, and files that are named twice."""
import os, resource, shutil, subprocess, unittest

from common import SAMPLE, SPOOL, definition, document, needs_program, needs_spool, run
from spools import OLD, OTHERS, UNITS, Rooms, defined, lines_of, page, sixteen, whole


@needs_program
@needs_spool
class Sixteen(Rooms):
    def setUp(self):
        super().setUp()
        self.documents, self.looks, self.fonts = sixteen()
        self.names = [self.write(f'{number}.dvi', data) for number, data in enumerate(self.documents)]
        self.alone = {name: run(data) for name, data in zip(self.names, self.documents)}

    def pairs(self, names):
        return [word for name in names for word in (name, f'{name}.pbm')]

    def compare(self, names=None):
        """Each file has what dvipbm writes for the document alone."""
        self.assertEqual([name for name in names or self.names if self.read(f'{name}.pbm') != self.alone[name][1]], [])

    def test_each_as_alone(self):
        self.assertEqual({found[0] for found in self.alone.values()}, {0})
        for workers in ('1', '4', '32'):
            status, notes = self.spooled('300', workers, '16', *self.pairs(self.names))
            self.assertEqual((status, notes[:16]), (0, lines_of(16 * [0])))
            self.assertEqual([line.split()[0] for line in notes[16:]], ['looks', 'hits', 'loads'])
            self.assertEqual(notes[16], f'looks {self.looks}')
            self.compare()

    def test_fonts_are_read_once_for_all_of_the_same_units(self):
        """With one worker each font is missed once in its cache, and its three files are asked for: the VF file isn't there."""
        notes = self.spooled('300', '1', '4', *self.pairs(self.names))[1]
        self.assertEqual(notes[16:], [f'looks {self.looks}', f'hits {self.looks - self.fonts}', f'loads {3 * self.fonts}'])
        alone = 0
        for data in self.documents:
            summary = dict(line.split() for line in run(data, options=['--summary'])[2].splitlines())
            alone += int(summary['loads'])
        self.assertLess(3 * self.fonts, alone)

    def test_another_order_and_fewer(self):
        """The same bytes for each, whatever stands beside it, and from a cache of one font."""
        for names in (self.names[::-1], self.names[5:9], self.names[:1]):
            for name in self.names:
                self.write(f'{name}.pbm', OLD)
            self.assertEqual(self.spooled('300', '2', '1', *self.pairs(names))[0], 0)
            self.compare(names)
            self.assertEqual([name for name in self.names if name not in names and self.read(f'{name}.pbm') != OLD], [])

    def test_those_that_fail_among_them(self):
        """In the first, a middle and the last place. All others have their pages, and the answer is the first status that isn't 0."""
        two = whole([(0,), (1,)])
        failing = {
            'text': (b'\\bye\n', 2, b''), 'cut': (two[:-5], 2, b''), 'empty': (b'', 2, b''),
            'stack': (document([page(0), b'\x8e'], defined(0), **UNITS), 3, run(whole([(0,)]))[1]),
            'font': (document([page(0), b'\xacT'], defined(0) + definition(1, b'nosuchfont'), **UNITS), 4, run(whole([(0,)]))[1]),
        }
        for name, (data, status, _) in failing.items():
            self.write(name, data)
            self.assertEqual(run(data)[0], status)
        order = [*failing, *self.names[:11]]
        for at in (0, 5, 11):
            names = order[5:5 + at] + order[:5] + order[5 + at:]
            statuses = [failing[name][1] if name in failing else 0 for name in names]
            for workers in ('1', '4'):
                for name in names:
                    self.write(f'{name}.pbm', OLD)
                status, notes = self.spooled('300', workers, '16', *self.pairs(names))
                self.assertEqual((status, notes[:16]), (2, lines_of(statuses)))
                self.compare(self.names[:11])
                # Where nothing was written the older file is as it was.
                self.assertEqual({name: self.read(f'{name}.pbm') for name in failing}, {name: wrote or OLD for name, (_, _, wrote) in failing.items()})

    def test_files_that_cannot_be_read_or_written_among_them(self):
        os.mkdir(self.path('folder'))
        bad = {'none.dvi': 'a', 'folder': 'b', self.names[12]: '/dev/full', self.names[13]: 'no folder/c', self.names[14]: 'folder'}
        statuses = {'none.dvi': 6, 'folder': 6, self.names[12]: 7, self.names[13]: 7, self.names[14]: 7}
        for at in (0, 5, 11):
            jobs = [(name, f'{name}.pbm') for name in self.names[:11]]
            jobs[at:at] = list(bad.items())
            for workers in ('1', '4'):
                status, notes = self.spooled('300', workers, '16', *(word for job in jobs for word in job))
                self.assertEqual((status, notes[:16]), (6, lines_of([statuses.get(name, 0) for name, _ in jobs])))
                self.compare(self.names[:11])
        self.assertEqual((self.read('a'), self.read('b'), os.listdir(self.path('folder'))), (None, None, []))

    def test_a_file_that_may_not_be_read_or_written(self):
        """By a user for whom the rights count, where this one is root."""
        os.chmod(self.room, 0o777)
        for name in self.names[:3]:
            os.chmod(self.path(name), 0o644)
        os.chmod(self.path(self.names[0]), 0)
        self.write('kept', OLD)
        os.chmod(self.path('kept'), 0o444)
        who = {} if os.geteuid() else {'user': 65534, 'group': 65534}
        words = [shutil.copy(SPOOL, self.path('dvispool')), '300', '1', '16', self.names[0], 'x', self.names[1], 'kept', self.names[2], 'y']
        ran = subprocess.run(words, cwd=self.room, stdin=subprocess.DEVNULL, capture_output=True, env={**os.environ, 'DVIPBM_FONTS': self.fonts_of_all()},
                             **who)
        self.assertEqual((ran.returncode, ran.stderr.decode().splitlines()[:3]), (6, lines_of([6, 7, 0])))
        self.assertEqual((self.read('x'), self.read('kept'), self.read('y')), (None, OLD, self.alone[self.names[2]][1]))

    def fonts_of_all(self):
        """A folder of the fonts that every user may read."""
        os.mkdir(self.path('fonts'))
        os.chmod(self.path('fonts'), 0o755)
        for name in os.listdir(SAMPLE):
            if name.endswith(('pk', 'tfm')):
                shutil.copy(f'{SAMPLE}/{name}', self.path('fonts'))
                os.chmod(self.path(f'fonts/{name}'), 0o644)
        return self.path('fonts')


@needs_program
@needs_spool
class Files(Rooms):
    def setUp(self):
        super().setUp()
        self.long, self.short, self.other = whole([(0,), (1,)]), whole([(2,)]), whole([(3,)], OTHERS)
        for name in ('long', 'short', 'other'):
            self.write(name, getattr(self, name))
        self.write('none', document([], **UNITS))

    def pages(self, data):
        return run(data)[1]

    def test_a_document_without_pages_leaves_its_file(self):
        self.write('old', OLD)
        status, notes = self.spooled('300', '1', '16', 'none', 'old', 'none', 'new', 'none', 'no folder/x')
        self.assertEqual((status, notes), (0, [*lines_of([0, 0, 0]), 'looks 0', 'hits 0', 'loads 0']))
        self.assertEqual((self.read('old'), self.read('new')), (OLD, None))

    def test_the_same_input_twice(self):
        self.assertEqual(self.spooled('300', '1', '16', 'long', 'a', 'long', 'b')[0], 0)
        self.assertEqual((self.read('a'), self.read('b')), 2 * (self.pages(self.long),))

    def test_the_same_output_twice(self):
        """It has the pages of the one that is drawn last: of equal units in their order, and those of other units after them."""
        for names, last in ((['long', 'short'], self.short), (['short', 'long'], self.long), (['long', 'other', 'short'], self.other)):
            for workers in ('1', '4'):
                status, notes = self.spooled('300', workers, '16', *(word for name in names for word in (name, 'pages')))
                self.assertEqual((status, notes[:len(names)]), (0, lines_of(len(names) * [0])))
                self.assertTrue(self.read('pages') == self.pages(last), names)

    def test_one_that_writes_nothing_leaves_what_another_wrote(self):
        self.write('bad', self.long[:-5])
        self.assertEqual(self.spooled('300', '1', '16', 'long', 'pages', 'bad', 'pages', 'none', 'pages')[0], 2)
        self.assertTrue(self.read('pages') == self.pages(self.long))

    def test_an_output_that_is_the_input_of_another(self):
        """All are read before anything is written; so both are drawn as they were."""
        self.assertEqual(self.spooled('300', '1', '16', 'long', 'short', 'short', 'long')[0], 0)
        self.assertTrue((self.read('short'), self.read('long')) == (self.pages(self.long), self.pages(self.short)))

    def test_an_output_that_is_its_own_input(self):
        self.assertEqual(self.spooled('300', '1', '16', 'long', 'long', 'short', 'b')[0], 0)
        self.assertTrue((self.read('long'), self.read('b')) == (self.pages(self.long), self.pages(self.short)))

    def test_a_longer_file_is_emptied(self):
        self.write('pages', bytes(9 << 20))
        self.assertEqual(self.spooled('300', '1', '16', 'short', 'pages')[0], 0)
        self.assertTrue(self.read('pages') == self.pages(self.short))

    def test_the_sheet_and_the_fonts(self):
        """At 300 dots to the inch the fonts are there, at 150 they aren't; a rule needs none."""
        rule = document(b'\x89\x00\x10\x00\x00\x00\x10\x00\x00', **UNITS)
        self.write('rule', rule)
        self.assertEqual(self.spooled('150', '1', '16', 'rule', 'a', 'short', 'b')[1][:2], lines_of([0, 4]))
        self.assertTrue(self.read('a') == run(rule, options=['--res', '150'])[1])
        self.assertTrue(self.read('a').startswith(b'P4\n1275 1650\n'))
        status, notes = self.spooled('300', '1', '16', 'short', 'c', fonts=self.path('no folder'))
        self.assertEqual((status, notes), (4, ['job 1 status 4', 'looks 1', 'hits 0', 'loads 1']))

    def test_a_font_that_cannot_be_read(self):
        """A file in the place of the folder: no more jobs have status 5 than loads failed, here each."""
        status, notes = self.spooled('300', '1', '16', 'long', 'a', 'none', 'b', 'short', 'c', fonts=self.path('long'))
        self.assertEqual((status, notes[:3]), (5, lines_of([5, 0, 5])))


@needs_program
@needs_spool
class Lines(Rooms):
    USAGE = 1, ['dvispool: usage']

    def setUp(self):
        super().setUp()
        self.write('a', whole([(0,)]))

    def test_arguments_that_are_none(self):
        for words in ([], ['300'], ['300', '1', '16'], ['300', '1', '16', 'a'], ['300', '1', '16', 'a', 'b', 'a'], ['300', '1', '16', 'a', ''],
                      ['300', '1', '16', '', 'b'], ['0', '1', '16', 'a', 'b'], ['4801', '1', '16', 'a', 'b'], ['300', '0', '16', 'a', 'b'],
                      ['300', '33', '16', 'a', 'b'], ['300', '1', '0', 'a', 'b'], ['300', '1', '257', 'a', 'b'], ['00000300', '1', '16', 'a', 'b'],
                      ['+300', '1', '16', 'a', 'b'], ['300 ', '1', '16', 'a', 'b'], ['', '1', '16', 'a', 'b'], ['--res', '300', '1', 'a', 'b'],
                      ['300', '1', '16', *17 * ['a', 'b']], ['--help'], ['-h']):
            self.assertEqual(self.spooled(*words), self.USAGE, words)
        self.assertEqual(os.listdir(self.room), ['a'])

    def test_zeros_before_a_number_and_the_largest(self):
        self.assertEqual(self.spooled('0000300', '0000032', '0000256', 'a', 'b')[0], 0)
        self.assertTrue(self.read('b') == run(self.read('a'))[1])

    def test_names_that_look_like_options(self):
        for name in ('-', '--help', '-x'):
            self.write(name, self.read('a'))
            self.assertEqual(self.spooled('300', '1', '16', name, f'{name}.pbm')[0], 0, name)
            self.assertTrue(self.read(f'{name}.pbm') == run(self.read('a'))[1])

    def test_what_is_not_utf_8(self):
        self.assertEqual(self.spooled('300', '1', '16', 'a', b'\xff'), (10, []))
        self.assertEqual(self.spooled('300', '1', '16', 'a', 'b', fonts=b'\xff'), (10, []))
        self.assertEqual(self.spooled(fonts=b'\xff'), (10, []))
        self.assertEqual(os.listdir(self.room), ['a'])

    def test_notes_that_fail(self):
        """They change no page, and decide only between 0 and 8."""
        self.write('bad', b'x')
        with open('/dev/full', 'wb') as full:
            self.assertEqual(self.spooled('300', '1', '16', 'a', 'b', stderr=full)[0], 8)
            self.assertEqual(self.spooled('300', '1', '16', 'bad', 'c', 'a', 'd', stderr=full)[0], 2)
            self.assertEqual(self.spooled('300', stderr=full)[0], 1)
        self.assertTrue(self.read('b') == self.read('d') == run(self.read('a'))[1])

    def test_memory_that_runs_out(self):
        self.write('large', document([page(0)], defined(0), filler=b'\xdf' * (60 << 20), **UNITS))
        limit = lambda: resource.setrlimit(resource.RLIMIT_AS, (48 << 20, 48 << 20))
        self.assertEqual(self.spooled('300', '1', '16', 'large', 'b', preexec_fn=limit)[0], 9)
        self.assertEqual(self.read('b'), None)


if __name__ == '__main__':
    unittest.main()
