"""What README, DECISIONS, CONTRIBUTING and the manual page have to say, and how long their sentences may be."""
import os, re, shutil, subprocess, tempfile, unittest

from common import PROGRAM, TOP, needs_program, run


def text_of(name):
    with open(f'{TOP}/{name}', encoding='utf-8') as file:
        return file.read()


def section(text, head):
    found = re.search(rf'^## {head}\n(.*?)(?=^## |\Z)', text, re.S | re.M)
    if not found:
        raise AssertionError(f'there is no section {head}')
    return found[1]


def sentences(text):
    """The sentences of a text outside of tables, headings and code; what stands in backquotes ends none."""
    for line in re.sub(r'^```.*?^```', '', text, flags=re.S | re.M).split('\n'):
        if not line.startswith(('|', '#')):
            line = re.sub(r'`[^`]*`', lambda code: re.sub('[.!?]', '-', code[0]), re.sub(r'^ *(?:[-*]|\d+\.) ', '', line.replace('**', '')))
            yield from re.split(r'(?<=[.!?])\s+', line)


class Decisions(unittest.TestCase):
    def setUp(self):
        self.text = text_of('docs/DECISIONS.md')

    def test_no_sentence_has_more_than_fifty_words(self):
        self.assertEqual([sentence for sentence in sentences(self.text) if len(sentence.split()) > 50], [])

    def test_types_have_their_names_and_nothing_is_cited_that_no_reader_has(self):
        self.assertEqual(re.findall(r'[^.]*\b(?:acts?|papers)\b[^.]*', self.text), [])
        self.assertIn('without the `Effect` that stands for any command', self.text)


class Readme(unittest.TestCase):
    def setUp(self):
        self.text = text_of('README.md')

    def test_measurements_are_one_table_of_three_rows(self):
        rows = [line for line in self.text.split('\n') if line.startswith('|')]
        self.assertEqual(len(rows), 2 + 3)
        self.assertLess(len(section(self.text, 'Speed')), len(self.text) / 8)
        self.assertIn('](bench/README.md)', self.text)

    def test_each_script_of_bench_is_named_there(self):
        scripts = [name for name in os.listdir(f'{TOP}/bench') if '.' not in name]
        measures = text_of('bench/README.md')
        self.assertEqual([name for name in sorted(scripts) if f'`bench/{name}' not in measures], [])

    def test_what_is_proved_says_no_more_than_the_clauses(self):
        proved = section(self.text, 'What is proved')
        self.assertIn('Each call ends but those that may wait for a turn', proved)
        self.assertIn('Status 9 is for memory that ran out. It may come in place of any other', proved)
        self.assertEqual(re.findall(r'and the run ends\b', proved), [])

    def test_words_that_a_stranger_reads_twice(self):
        pages = ('README.md', 'CHANGELOG.md', 'CONTRIBUTING.md', 'bench/README.md', 'docs/PROMISES.md', 'docs/USING.md', 'docs/man/dvipbm.1', 'docs/man/dvipbm-recipes.1')
        words = r'tells its cause|\bturn about|want of memory|\bis none\b|passed over|may so be|takes? them away'
        self.assertEqual([(page, found) for page in pages for found in re.findall(words, text_of(page))], [])

    def test_the_kit_that_proved_it_is_named_alike(self):
        kit = r'`(rattle-kit-\w+ logic \w+)` \(`rt version`\)'
        self.assertEqual(re.findall(kit, self.text), re.findall(kit, text_of('docs/CRATES.md')))

    def test_where_to_read_how_to_change_it(self):
        self.assertIn('](CONTRIBUTING.md)', self.text)


class Contributing(unittest.TestCase):
    def test_how_one_crate_is_proved_and_tested(self):
        text = text_of('CONTRIBUTING.md')
        words = ['rt check', 'rt check --only', 'rt test', 'rt try --test', 'rt plant', 'rt must-fail NAME', 'tools/try-more-bugs', 'tools/check-scripts', '.ci/run']
        self.assertEqual([word for word in words if f'`{word}' not in text], [])
        self.assertEqual(sorted(sentence for sentence in sentences(text) if len(sentence.split()) > 50), [])

    def test_the_packages_of_all_tools_that_tests_look_for(self):
        """Each tool that a test asks for by needs(..), and where Debian has it."""
        packages = {
            'texlive-latex-base': 'tex latex mktexpk mf gftopk kpsewhich', 'netpbm': 'pamsplit pnmtopng pngtopam pnmtops pamtotiff tifftopnm',
            'ghostscript': 'gs', 'cups': 'cupsfilter', 'parallel': 'parallel', 'rsync': 'rsync', 'mandoc': 'mandoc', 'man-db': 'man', 'groff': 'groff',
            'make': 'make', 'gcc': 'gcc cc', 'coreutils': 'timeout', 'binutils': 'objdump',
        }
        asked = set()
        for place in ('tools/check-scripts', *(f'tools/tests/{name}' for name in os.listdir(f'{TOP}/tools/tests') if name.endswith('.py'))):
            for words in re.findall(r"needs\(('[^)]*)\)", text_of(place)):
                asked |= set(re.findall(r"'([^']*)'", words))
        self.assertIn('pamsplit', asked)
        self.assertEqual(sorted(asked - {tool for tools in packages.values() for tool in tools.split()}), [])
        listed = re.search(r'apt-get install (.*?)```', text_of('CONTRIBUTING.md'), re.S)[1].replace('\\', '').split()
        self.assertEqual(sorted({*packages, 'python3'} - set(listed)), [])


class Limits(unittest.TestCase):
    def setUp(self):
        page = text_of('docs/man/dvipbm.1')
        self.page = page
        self.limits = ' '.join(page[page.index('.Sh LIMITS'):page.index('.Sh NOTES')].split())

    def test_what_memory_grows_by(self):
        for words in ('Each look-up of a font is kept to the end of the run, in 33 bytes', '0.6 GB', '226 pages', '17 MB', 'one page with one worker, at most 16 with up to eight, and at most 32 with more',
                      '.Pq Ql ulimit -v'):
            self.assertIn(words, self.limits)

    def item(self, head):
        return ' '.join(re.search(rf'^\.It Li {head}\n(.*?)(?=^\.It |^\.El)', self.page, re.S | re.M)[1].split())

    def test_remedies_of_their_own(self):
        self.assertIn('At 0 nothing came in at all', self.item('truncated'))
        self.assertIn('.Fl Fl sample no folder is read: its fonts are made for 300 dots to the inch', self.item('"missing pk"'))

    @needs_program
    def test_the_lines_that_these_remedies_are_of(self):
        self.assertEqual(run(b'')[::2], (2, 'dvipbm: document: truncated at 0\n'))
        ran = subprocess.run([PROGRAM, '--sample', '1', '--res', '600'], stdin=subprocess.DEVNULL, capture_output=True, text=True)
        self.assertRegex(ran.stderr, r'\Advipbm: page 1 at \d+: font \S+ \d+ \d+: missing pk\n\Z')
        self.assertEqual([subprocess.run([PROGRAM, '--sample', '1', '--res', res], stdin=subprocess.DEVNULL, capture_output=True).returncode
                          for res in ('299', '300', '301')], [0, 0, 0])

    @unittest.skipUnless(shutil.which('mktexpk') and shutil.which('mf'), 'not installed: mktexpk or mf')
    def test_the_command_for_a_missing_pk_serves_every_resolution(self):
        """As the page has it, for 203, 317 and 4800 dots to the inch; the program then finds the file."""
        words = re.search(r'\.Ql (mktexpk .*?) , where', self.item('"missing pk"'))[1].replace('Ar ', '').replace(' Ns ', '')
        self.assertEqual(words, 'mktexpk --mfmode ljfour --bdpi 600 --mag q+r/600 --dpi n name')
        for dots in (203, 317, 4800):
            with tempfile.TemporaryDirectory() as room:
                asked = words.replace('q+r', f'{dots // 600}+{dots % 600}').replace(' n name', f' {dots}').split()
                ran = subprocess.run([*asked, '--destdir', room, 'cmr10'], cwd=room, stdin=subprocess.DEVNULL, capture_output=True, text=True)
                self.assertTrue(os.path.exists(f'{room}/cmr10.{dots}pk'), ran.stderr)


if __name__ == '__main__':
    unittest.main()
