"""tools/check-messages sees each message that is added to FORMATS or taken from the manual page."""
import importlib.machinery, importlib.util, unittest

from common import TOP


def loaded():
    loader = importlib.machinery.SourceFileLoader('check_messages', f'{TOP}/tools/check-messages')
    module = importlib.util.module_from_spec(importlib.util.spec_from_loader('check_messages', loader))
    loader.exec_module(module)
    return module


def read(name):
    with open(f'{TOP}/docs/{name}', encoding='utf-8') as file:
        return file.read()


class Messages(unittest.TestCase):
    def test_one_that_is_added_to_formats(self):
        formats, of_formats = read('FORMATS.md'), loaded().of_formats
        before = of_formats(formats)
        for old, new, message in (
            ('FAULT of a page is `', 'FAULT of a page is `newly wrong`, `', 'newly wrong'),
            ('FAULT of a document is `', 'FAULT of a document is `all wrong K`, `', 'all wrong K'),
            ('FONT is `', 'FONT is `late`, `', 'late'),
            ('LACK is `', 'LACK is `no ink in KEY`, `', 'tolerated no ink in KEY'),
            ('| WidthZero |', '| WidthOdd(c) | it is odd |\n| WidthZero |', 'tfm width odd C'),
            ('Overrun (a run', 'Loop(row) (it turns), Overrun (a run', 'pk runs C loop ROW'),
            ('FontTooBig (the rasters of all packets', 'NoGlyphs (none is there), FontTooBig (the rasters of all packets', 'pk no glyphs'),
            ('Outside(code) (a paint', 'Loose(code) (it floats), Outside(code) (a paint', 'gf loose C'),
            ('| 6 | `dvipbm: input failed` |', '| 6 | `dvipbm: input failed` | . |\n| 8 | `dvipbm: lost` |', 'dvipbm: lost'),
        ):
            self.assertEqual(formats.count(old), 1, old)
            self.assertEqual(of_formats(formats.replace(old, new)) - before, {message})

    def test_one_that_is_taken_from_the_manual(self):
        manual, module = read('man/dvipbm.1'), loaded()
        items = [line for line in manual.split('\n') if line.startswith('.It Li ')]
        self.assertEqual(len(items), len(module.of_manual(manual)))
        lacking = [line for line in items if len(module.of_manual(manual.replace(f'{line}\n', '', 1))) != len(items) - 1]
        self.assertEqual(lacking, [])

    def test_lines_of_dvispool(self):
        formats, manual, module = read('FORMATS.md'), read('man/dvispool.1'), loaded()
        lines, listed = module.of_spool(formats, manual)
        self.assertEqual((lines, sorted(listed)), ({'dvispool: usage', 'job K status S', 'looks N', 'hits N', 'loads N'}, sorted(lines)))
        self.assertEqual(module.of_spool(formats.replace('| `looks N` |', '| `looks N` | . |\n| `faults N` |'), manual)[0] - lines, {'faults N'})
        self.assertEqual(lines - set(module.of_spool(formats, manual.replace('.It Li "hits N"\n', ''))[1]), {'hits N'})

    def test_options_calls_and_counts(self):
        module = loaded()
        formats, manual = module.others_of_formats(read('FORMATS.md')), module.others_of_manual(read('man/dvipbm.1'))
        self.assertEqual(formats ^ manual, set())
        self.assertLessEqual({'--room', '--tolerant', '--top', 'trace: look KEY busy', 'trace: fill KEY evict -', 'trace: fill KEY evict KEY, KEY',
                              'trace: fill KEY not kept', 'summary: claims', 'summary: evictions'}, manual)
        self.assertEqual((sum(word.startswith('--') for word in manual), sum(word.startswith('summary') for word in manual)), (13, 9))


if __name__ == '__main__':
    unittest.main()
