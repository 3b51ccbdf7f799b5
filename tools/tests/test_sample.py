"""The sample's files are what its script makes, and its picture what the program draws."""
import importlib.machinery, importlib.util, os, sys, tempfile, unittest

from common import SAMPLE, needs_program, run


def loaded():
    sys.path.insert(0, SAMPLE)
    loader = importlib.machinery.SourceFileLoader('sample_make', f'{SAMPLE}/make')
    module = importlib.util.module_from_spec(importlib.util.spec_from_loader('sample_make', loader))
    loader.exec_module(module)
    return module


def read(name):
    with open(os.path.join(SAMPLE, name), 'rb') as file:
        return file.read()


class Sample(unittest.TestCase):
    def test_the_files_are_what_the_script_makes(self):
        made = loaded().files()
        self.assertEqual([name for name in made if made[name] != read(name)], [])
        self.assertEqual(sorted([*made, 'glyphs.py', 'make', 'page.png']), sorted(name for name in os.listdir(SAMPLE) if name != '__pycache__'))

    @needs_program
    def test_the_picture_is_what_the_program_draws(self):
        status, page, notes = run(read('sample.dvi'))
        self.assertEqual((status, notes), (0, ''))
        with tempfile.NamedTemporaryFile() as file:
            file.write(page)
            file.flush()
            self.assertTrue(loaded().picture(file.name) == read('page.png'))


if __name__ == '__main__':
    unittest.main()
