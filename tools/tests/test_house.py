"""What the sources keep to: how many arguments calls and definitions take, and how long bodies, files and lines are.

A finding is a line, FILE: what. What is allowed more is listed below with the reason; an exception that nothing needs any more is a finding too.
"""
import collections, glob, os, re, tempfile, unittest

from common import TOP

MAX_ARGUMENTS, MAX_BODY_LINES, MAX_FILE_LINES, MAX_COLUMNS = 7, 40, 300, 100

# Public calls whose signatures are given, of eight arguments each.
GIVEN = {'crates/dvi_run/src/run.rt: run_with', 'crates/dvi_run/src/run.rt: dvipbm_run', 'crates/page_workers/src/round.rt: draw_round'}

# The definitions that a reader of the promise begins with.
PROMISE = ('crates/dvi_run/specs/Promises.antt', 'crates/dvi_run/specs/Together.antt')

# Neighbours of one type that stand in one order everywhere (docs/DECISIONS.md, "Names").
ORDERED = {
    ('a', 'b'), ('y', 'z'),                                                                         # two that are compared
    ('x', 'y'), ('w', 'h'), ('width', 'height'), ('column', 'row'), ('columns', 'rows'), ('across', 'down'),  # across before down
    ('height', 'width'),                                                                            # a rule's sides, as DVI's set_rule has them
    ('from', 'until'), ('least', 'most'), ('least', 'greatest'),                                    # two ends
    ('first', 'count'), ('at', 'n'), ('at', 'len'),                                                 # a place and how many from there on
    ('by', 'space'),                                                                                # a motion and the space that it is compared with
}
NEIGHBOURS = {
    'crates/outside/src/mem_fonts.rt: starving',        # a given signature, the loads that fail and those that find no memory
    'crates/fix_word/src/sizes.rt: tex_units',          # a given signature, DVItype's d, num and den
    'crates/raster_page/src/page.rt: rule',             # a given signature, a place and two sides
    'crates/raster_page/src/span.rt: cut_end',          # the numbers of one stretch, for one caller
    'crates/drift_rules/src/motions.rt: column_right',  # h, a motion and a space, for one caller
    'crates/drift_rules/src/motions.rt: row_down',      # v, a motion and a space, for one caller
    'crates/drift_rules/src/motions.rt: advance_over',  # a width in DVI units, and the same in dots
    'crates/drift_rules/src/motions.rt: at_column',     # h and hh as they are to be
    'crates/drift_rules/src/motions.rt: at_row',        # v and vv as they are to be
    'crates/drift_rules/src/motions.rt: drift',         # a place in dots, and the rounded one
    'crates/dvi_commands/src/writer/fields.rt: append_post',  # the depth and the pages, as in the command
    'crates/pixel_round/src/quotients.rt: small_quotient',  # a number and its reciprocal, which a clause ties
    'crates/packed_rows/src/packed.rt: copy_down',      # a row, and how often
    'crates/gf_reader/src/drawing.rt: move_to',         # rows down, and a column
    'crates/gf_reader/src/head.rt: raster_side',        # a side and the other one
    'crates/pk_packer/src/tally.rt: add',             # how many runs, and of which length
    'crates/pk_packer/src/writer.rt: write_run',        # the same
    'crates/pk_packer/src/row.rt: run_end',             # a column, and the columns of the row
    'crates/pk_runs/src/given.rt: paint_given',         # the columns of a row, and a place
    'crates/pk_runs/src/numbers.rt: number',            # dyn_f, and a nybble
    'crates/cache_seats/src/pace.rt: steps_from',       # a number, and how many steps from it
    'crates/cache_seats/src/pace.rt: note',             # look-ups, and a number that is kept
    'crates/turn_lock/src/example.rt: finish',          # two seats that are joined one after the other
}

# What docs/DECISIONS.md allows under "Length", none of which may become more: so many of a kind, and none longer than so many lines. The
# functions that aren't tests are named there, each with its lines.
NAMED_BODIES, TEST_BODIES = 3, (4, 53)
LONG_FILES = {'crates/font_file_tests/src/tests/packed_fonts.rt': (1, 442), 'crates/*/proofs/**/*.antt': (6, 404), 'tools/tests/*.py': (3, 465)}
A_TEST = re.compile(r'_tests/|/tests?[/.]|/run_cases/')

Function = collections.namedtuple('Function', 'name arguments lines')


def blanked(text, comment='//', literals=r'''|/\*.*?\*/|b?r(#*)".*?"\1|b?"(?:\\.|[^"\\])*"|b?'(?:\\[^\n']+|[^\\'\n])[']'''):
    """The text with blanks for comments and literals, so that each bracket and comma that is left is one of the code."""
    return re.sub(rf'{comment}[^\n]*{literals}', lambda found: re.sub(r'[^\n]', ' ', found[0]), text, flags=re.S)


def end_of_group(text, at):
    """The place after the group that the bracket at a place opens. The > of an arrow closes none."""
    pair = {'{': '{}', '(': '()', '<': '<>'}[text[at]]
    depth = 0
    for found in re.compile(rf'[-=]>|[{pair}]').finditer(text, at):
        depth += {pair[0]: 1, pair[1]: -1}.get(found[0], 0)
        if depth == 0:
            return found.end()
    raise AssertionError(f'a bracket is left open: {text[at:at + 60]!r}')


def parted(text, between=',', opening='<({[', closing='>)}]'):
    """The parts of a text between commas, or other marks, that stand in no brackets."""
    parts, depth, begin = [], 0, 0
    for found in re.finditer(rf'[-=]>|{between}|[{re.escape(opening + closing)}]', text):
        depth += (found[0] in opening) - (found[0] in closing)
        if found[0] == between and depth == 0:
            parts.append(text[begin:found.start()])
            begin = found.end()
    return [' '.join(part.split()) for part in [*parts, text[begin:]] if part.strip()]


def functions(text):
    """The functions of a Rattle file: the name, the arguments as they are written, and the lines between the braces of the body."""
    text = blanked(text)
    clause = re.compile(r'[^{;]*\b(?:ghost|requires|ensures)\b\*?[^{;]*(?=\{)')
    for found in re.finditer(r'\bfn\s+(\w+)\s*', text):
        at = found.end()
        at = text.index('(', end_of_group(text, at) if text[at] == '<' else at)
        end = end_of_group(text, at)
        arguments = parted(text[at + 1:end - 1])
        while clause.match(text, end):
            end = end_of_group(text, clause.match(text, end).end())
        body = re.compile('[{;]').search(text, end).start()
        lines = text[body:end_of_group(text, body)].count('\n') - 1 if text[body] == '{' else 0
        yield Function(found[1], arguments, lines)


def neighbours(arguments):
    """Two neighbouring arguments of one type that a caller can swap."""
    named = [tuple(part.strip() for part in re.split(r':(?!:)', re.sub(r'^mut ', '', argument), maxsplit=1)) for argument in arguments]
    named = [one if len(one) == 2 else (one[0], None) for one in named]
    return [f'{name}, {other}: {kind}' for (name, kind), (other, its) in zip(named, named[1:])
            if kind is not None and its == kind and (name, other) not in ORDERED]


def explicit(text):
    """How many arguments stand in a definition's head, or on one side of an arrow: those in parentheses by their names, and none in braces."""
    count, at = 0, 0
    while at < len(text):
        if text[at] in '({':
            end = end_of_group(text, at)
            names = re.match(r'([^(){}:]*):', text[at + 1:end - 1])
            count += 0 if text[at] == '{' else len(names[1].split()) if names else 1
            at = end
        elif text[at].isspace():
            at += 1
        else:
            return 1
    return count


def definitions(text):
    """The records and abbreviations of a file of definitions, each with the number of its arguments; those of a module around it count too."""
    text = blanked(text, comment='--', literals='')
    around = []
    for found in re.finditer(r'^( *)(?:pub )?(record|abbrev|module)(?: pub)? (\S+)', text, re.M):
        indent, kind, name = len(found[1]), found[2], found[3]
        around = [(depth, count) for depth, count in around if depth < indent]
        end = re.compile(r'\bwhere\b' if kind != 'abbrev' else rf'^ *{re.escape(name)}\s', re.M).search(text, found.end()).start()
        # `_` keeps a head without arguments from being left out.
        head, *kinds = parted('{_} ' + text[found.end():end], ':', '({[', ')}]')
        count = explicit(head) + sum(explicit(side) for side in parted(':'.join(kinds), '→', '({[', ')}]')[:-1])
        if kind == 'module':
            around.append((indent, count))
        else:
            yield name, count + sum(more for _, more in around)


def long_bodies():
    """The functions that docs/DECISIONS.md names, with the lines that each may have."""
    with open(f'{TOP}/docs/DECISIONS.md', encoding='utf-8') as file:
        text = re.search(r'^## Length\n(.*?)(?=^## |\Z)', file.read(), re.S | re.M)[1]
    return {name.split('::')[-1]: int(lines) for name, lines in re.findall(r'`([\w:]+)` (\d+)', text)}


def findings(top, named=None):
    """What the sources of a repository don't keep to, and the exceptions that none of them needs."""
    found, needed, named = [], set(), long_bodies() if named is None else named
    of_tests = []

    def sources(*patterns):
        for name in sorted({name for pattern in patterns for name in glob.glob(pattern, root_dir=top, recursive=True)}):
            with open(os.path.join(top, name), encoding='utf-8') as file:
                yield name, file.read()

    def judge(what, exception, exceptions, finding):
        needed.add(exception)
        if exception not in exceptions:
            found.append(f'{what} has {finding}')

    for name, text in sources('crates/*/src/**/*.rt'):
        for function in functions(text):
            what, lines = f'{name}: {function.name}', function.lines
            if len(function.arguments) > MAX_ARGUMENTS:
                judge(what, what, GIVEN, f'{len(function.arguments)} arguments')
            for alike in neighbours(function.arguments) if not A_TEST.search(name) else ():
                judge(what, what, NEIGHBOURS, f'neighbours of one type: {alike}')
            if lines > MAX_BODY_LINES and A_TEST.search(name) and lines <= TEST_BODIES[1]:
                of_tests.append(f'{what} has a body of {lines} lines')
            elif lines > MAX_BODY_LINES:
                allowed = lines <= named.get(function.name, 0) and not A_TEST.search(name)
                judge(what, function.name, named if allowed else (), f'a body of {lines} lines')
    for name, text in sources(*PROMISE):
        found += [f'{name}: {what} has {count} arguments' for what, count in definitions(text) if count > MAX_ARGUMENTS]
    for name, text in sources('crates/*/src/**/*.rt', 'crates/*/specs/**/*.antt'):
        # Imports stand on one line, and so do the lemmas that an attribute names. Proofs have terms of any length.
        found += [f'{name}:{number} has {len(line)} columns' for number, line in enumerate(text.splitlines(), 1)
                  if len(line) > MAX_COLUMNS and not re.match(r'\s*(?:(?:pub )?(?:ghost )?use |#\[tactic\()', line)]
    of_kind = {name: kind for kind in LONG_FILES for name, _ in sources(kind)}
    long = {kind: [] for kind in LONG_FILES}
    for name, text in sources('crates/*/src/**/*.rt', 'crates/*/specs/**/*.antt', *LONG_FILES):
        count, kind = len(text.splitlines()), of_kind.get(name)
        if count > MAX_FILE_LINES:
            long.get(kind, []).append(name)
            if kind is None or count > LONG_FILES[kind][1]:
                found.append(f'{name} has {count} lines')
    found += [f'{kind}: {len(names)} have more than {MAX_FILE_LINES} lines: {", ".join(names)}'
              for kind, names in long.items() if len(names) > LONG_FILES[kind][0]]
    found += of_tests if len(of_tests) > TEST_BODIES[0] else []
    return found, sorted((GIVEN | NEIGHBOURS | named.keys()) - needed)


class House(unittest.TestCase):
    maxDiff = None

    def test_the_sources_keep_to_it(self):
        self.assertEqual(findings(TOP)[0], [])

    def test_each_exception_is_needed_and_none_is_added(self):
        self.assertEqual(findings(TOP)[1], [])
        self.assertLessEqual(len(long_bodies()), NAMED_BODIES)


class Findings(unittest.TestCase):
    """Small trees with a finding of each kind, and what is like one."""

    def found_in(self, **files):
        with tempfile.TemporaryDirectory() as top:
            for name, text in files.items():
                place = os.path.join(top, {'rt': 'crates/page/src/page.rt', 'tests': 'crates/page/src/tests.rt', 'antt': 'crates/page/specs/Page.antt',
                                           'proof': 'crates/page/proofs/Page.antt', 'promises': PROMISE[0]}[name])
                os.makedirs(os.path.dirname(place), exist_ok=True)
                with open(place, 'w', encoding='utf-8') as file:
                    file.write(text)
            return findings(top, {'named': 42})[0]

    def test_arguments_are_counted_in_any_signature(self):
        eight = ['&self', 'a: Result<u8, Vec<(u8, u16)>>', 'b: &dyn Fn(u8, u8) -> u8', 'c: [u8; 2]', '(d, e): (u8, i8)', "f: &'a str", 'g: T', 'h: char']
        for wanted, arguments in ((['crates/page/src/page.rt: draw has 8 arguments'], eight), ([], eight[1:])):
            for before, after in (('fn draw', ' {}'), ('    pub(crate) const fn draw<\'a, T: Fn(u8, u8) -> Vec<u8>, const N: usize>', ' -> [u8; 2] where T: Copy { () }'),
                                  ('fn draw', ' -> u8\n    ghost told: { ℕ }\n    requires { 1 < told × (told ≤ 2) }\n    ensures* both { a }\n{ 1 }\n'),
                                  ('trait Draws {\n    fn draw', '\n        ensures { a ≡ b };\n}')):
                for between in (', ', ',\n    ', ', // a comment, with ) and "\n    '):
                    text = f'// fn draw(none\nconst TEXT: &str = "fn draw(a";\n{before}({between.join(arguments)},){after}'
                    with self.subTest(text):
                        self.assertEqual([line for line in self.found_in(rt=text) if 'columns' not in line], wanted)

    def test_neighbours_of_one_type(self):
        for arguments, wanted in (
                ('&mut self, paper: &mut Vec<Page>, spare: &mut Vec<Page>', ['paper, spare: &mut Vec<Page>']),
                ('mut old: Seat<T>, new: Seat<T>, last: Seat<T>', ['old, new: Seat<T>', 'new, last: Seat<T>']),
                ('first: usize, count: usize, page: &Page', []), ('first: usize, count: usize, most: usize', ['count, most: usize']),
                ('count: usize, first: usize', ['count, first: usize']), ('n: u32, of: u64', []),
                ('a: &Key, b: &Key', []), ('across: Offset, down: Offset', []), ('down: Offset, across: Offset', ['down, across: Offset']),
                ('first: &Page, n: usize, second: &Page', []), ('f: &dyn Fn(u8) -> u8, g: &dyn Fn(u8) -> i8', [])):
            with self.subTest(arguments):
                names = [f'crates/page/src/page.rt: draw has neighbours of one type: {names}' for names in wanted]
                self.assertEqual(self.found_in(rt=f'fn draw({arguments}) {{}}'), names)
                self.assertEqual(self.found_in(tests=f'fn draw({arguments}) {{}}'), [])

    def test_bodies_are_counted_between_their_braces(self):
        contract = '    requires low { 1 < 2 }\n    ensures each { (k : ℕ)\n' + '        × (k ≡ k)\n' * 50 + '    }\n'
        for lines, wanted in ((40, []), (41, ['crates/page/src/page.rt: draw has a body of 41 lines'])):
            body = "    if b == b'}' { /* } */ }\n" + '    |x: u8|\n        ensures { result ≡ x }\n    { x };\n' + '    draw();\n' * (lines - 4)
            for before in ('fn draw() {\n', f'fn draw()\n{contract}{{\n'):
                with self.subTest(lines):
                    self.assertEqual(self.found_in(rt=f'{before}{body}}}\n\nfn other() {{\n}}\n'), wanted)

    def test_bodies_that_may_be_longer(self):
        def function(name, lines):
            return f'fn {name}() {{\n' + lines * '    draw();\n' + '}\n'

        self.assertEqual(self.found_in(rt=function('named', 42)), [])
        self.assertEqual(self.found_in(rt=function('named', 43)), ['crates/page/src/page.rt: named has a body of 43 lines'])
        self.assertEqual(self.found_in(tests=function('named', 54)), ['crates/page/src/tests.rt: named has a body of 54 lines'])
        self.assertEqual(self.found_in(tests=4 * function('draw', 53)), [])
        self.assertEqual(self.found_in(tests=5 * function('draw', 41)), 5 * ['crates/page/src/tests.rt: draw has a body of 41 lines'])

    def test_arguments_of_the_promise(self):
        around = 'module _ {F : Type 0} (n : ℕ)\n    (before after : List (Worker F)) where\n  -- (a b c d e f g h : ℕ)\n'
        for text, wanted in (
                ('pub record IsIt {F : Type 0} (a b : F → ℕ) (c : List (ℕ × ℕ)) (d e\n    f : ℕ) (P : Type 0) : Type 0 where\n  pub x : a ≡ b\n', None),
                ('pub record IsIt (a b : ℕ) (c : List ℕ) (d e\n    f g h : ℕ) : Type 0 where\n', 8),
                ('abbrev pub IsIt : {F : Type 0} → (F → ℕ) → List ℕ → (old new : Option (List ℕ))\n    → (e : ℕ) (f : ℕ) → ℕ → Type 0\nIsIt a b c d e f g = b ≡ c\n', None),
                ('abbrev pub IsIt : {F : Type 0} → (F → ℕ) → List ℕ → (old new : Option (List ℕ))\n    → (e : ℕ) (f : ℕ) → ℕ → ℕ → Type 0\nIsIt a b c d = b ≡ c\n', 8),
                (f'{around}  abbrev pub IsIt : ℕ → ℕ → ℕ → ℕ → Type 0\n  IsIt a b c d = a ≡ b\n', None),
                (f'{around}  abbrev pub IsIt : ℕ → (ℕ → ℕ) → (b c d : ℕ) → Type 0\n  IsIt a b c d = a ≡ b\n', 8),
                (f'{around}  pub record IsIt (a b c d e : ℕ) : Type 0 where\n', 8),
                (f'{around}  abbrev pub Other : Type 0\n  Other = ℕ\n\npub record IsIt (a b c d e : ℕ) : Type 0 where\n', None)):
            with self.subTest(text):
                self.assertEqual(self.found_in(promises=text), [f'{PROMISE[0]}: IsIt has {wanted} arguments'] if wanted else [])

    def test_lines_and_columns(self):
        long = '-- ' + 98 * '≡' + '\n'
        self.assertEqual(self.found_in(rt='//' + long, antt=300 * '\n', proof=long), ['crates/page/src/page.rt:1 has 103 columns'])
        self.assertEqual(self.found_in(antt=long, rt='ghost use ' + long + '    pub use ' + long + '#[tactic(auto, using(' + long),
                         ['crates/page/specs/Page.antt:1 has 101 columns'])
        self.assertEqual(self.found_in(rt=301 * '\n'), ['crates/page/src/page.rt has 301 lines'])
        self.assertEqual(self.found_in(antt=301 * '\n', proof=404 * '\n'), ['crates/page/specs/Page.antt has 301 lines'])
        self.assertEqual(self.found_in(proof=405 * '\n'), ['crates/page/proofs/Page.antt has 405 lines'])

    def test_long_proofs_may_not_become_more(self):
        with tempfile.TemporaryDirectory() as top:
            os.makedirs(f'{top}/crates/page/proofs')
            for count in range(1, 8):
                with open(f'{top}/crates/page/proofs/{count}.antt', 'w', encoding='utf-8') as file:
                    file.write(301 * '\n')
                self.assertEqual(len(findings(top, {})[0]), count // 7)


if __name__ == '__main__':
    unittest.main()
