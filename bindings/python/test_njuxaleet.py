"""Document 01: its examples, each refusal with its place, and the edges of a call."""
import os
import pickle
import subprocess
import sys
import unittest

from njuxaleet import LONGEST, O200K, Class, Options, Refused, class_of, cut, ends, next_end

MODE0, MODE2, MODE3 = Options(digits=0), Options(digits=2), Options(digits=3)
HERE = os.path.dirname(os.path.abspath(__file__))

EXAMPLES = [
    (b'', O200K, []),
    (b'THD 1250', O200K, [3, 4, 7, 8]),
    (b'THD 1250', MODE2, [3, 4, 5, 8]),
    (b'THD 1250', MODE0, [3, 4, 5, 6, 7, 8]),
    (b'0,5', O200K, [1, 2, 3]),
    (b"don't", O200K, [5]),
    (b"don't", Options(contractions=False), [3, 5]),
    (b"'sound", O200K, [6]),
    (b"x'll'd", O200K, [4, 6]),
    (b"a'\xC5\xBFb", O200K, [4, 5]),
    (b'\xD7\x90A', O200K, [2, 3]),
    (b'\xD7\x90Ab', O200K, [4]),
    (b'\xCC\x81A', O200K, [2, 3]),
    (b'  a', O200K, [1, 3]),
    (b' \n x', O200K, [2, 4]),
    (b'!\n/!', O200K, [3, 4]),
    (b'!\n/!', Options(slash=False), [2, 4]),
    (b'aB', O200K, [1, 2]),
    (b'ABc', O200K, [3]),
    (b'\tV', O200K, [2]),
    (b'\t5', O200K, [1, 2]),
    (b'\xC2\xA0a', O200K, [3]),
    (b'1\xC2\xB234', O200K, [4, 5]),
    (b'1\xC2\xB234', MODE2, [1, 5]),
]


class Examples(unittest.TestCase):
    def test_ends(self):
        for text, options, expected in EXAMPLES:
            with self.subTest(text=text, options=options):
                self.assertEqual(ends(text, options), expected)

    def test_next_end(self):
        for text, options, expected in EXAMPLES:
            with self.subTest(text=text, options=options):
                starts = [0] + expected
                self.assertEqual([next_end(text, start, options) for start in starts], expected + [None])

    def test_cut(self):
        self.assertEqual(cut(b'THD 1250'), [b'THD', b' ', b'125', b'0'])
        for text, options, expected in EXAMPLES:
            with self.subTest(text=text, options=options):
                self.assertEqual(b''.join(cut(text, options)), text)
                self.assertEqual(len(cut(text, options)), len(expected))

    def test_ends_from_a_start(self):
        self.assertEqual(ends(b'THD 1250', start=4), [7, 8])
        self.assertEqual(ends(b'THD 1250', MODE2, 5), [8])
        self.assertEqual(ends(b'THD 1250', start=8), [])

    def test_o200k(self):
        self.assertEqual(O200K, (True, 1, True))
        self.assertEqual(Options(), O200K)


class Kinds(unittest.TestCase):
    def test_bytearray_and_memoryview(self):
        for data in (bytearray(b'THD 1250'), memoryview(b'THD 1250'), memoryview(bytearray(b'THD 1250'))):
            self.assertEqual(cut(data), cut(bytes(data)))
            self.assertTrue(all(type(token) is bytes for token in cut(data)))

    def test_memoryview_with_steps(self):
        self.assertEqual(cut(memoryview(b'T-H-D- -1-2-5-0')[::2]), [b'THD', b' ', b'125', b'0'])

    def test_str_is_told_to_encode(self):
        for call in (lambda: cut('THD'), lambda: ends('THD'), lambda: next_end('THD', 0)):
            with self.assertRaisesRegex(TypeError, 'encode'):
                call()

    def test_no_text(self):
        for data in (None, 5, [84, 72, 68]):
            with self.assertRaises(TypeError):
                cut(data)

    def test_numbers_below_0(self):
        for call in (lambda: next_end(b'a', -1), lambda: cut(b'a', Options(digits=-1)), lambda: class_of(-1)):
            with self.assertRaises(ValueError) as caught:
                call()
            self.assertNotIsInstance(caught.exception, Refused)


class Refusals(unittest.TestCase):
    def refused(self, data, options, start, number, place):
        for call in (lambda: next_end(data, start, options), lambda: ends(data, options, start)):
            with self.assertRaises(Refused) as caught:
                call()
            self.assertEqual((caught.exception.number, caught.exception.place), (number, place))

    def test_mode(self):
        self.refused(b'THD 1250', MODE3, 0, 1, 0)
        self.refused(b'THD 1250', Options(digits=256), 0, 1, 0)

    def test_too_long(self):
        self.assertEqual(ends(b'a' * LONGEST), [LONGEST])
        self.refused(b'a' * (LONGEST + 1), O200K, 0, 2, LONGEST)

    def test_not_utf8(self):
        for data in (b'\xF4\x90\x80\x80', b'\xC0\x80', b'\xED\xA0\x80', b'\xE2\x82'):
            self.refused(data, O200K, 0, 3, 0)
        self.refused(b'THD \xFF', O200K, 0, 3, 4)
        for data in (b'\xF4\x8F\xBF\xBF', b'\xC2\x80', b'\xED\x9F\xBF', b'\0'):
            self.assertEqual(cut(data), [data])

    def test_past_end(self):
        self.refused(b'THD 1250', O200K, 9, 4, 8)
        self.refused(b'THD 1250', O200K, 2 ** 64, 4, 8)
        self.refused(b'', O200K, 1, 4, 0)

    def test_inside_a_character(self):
        self.refused(b'\xC2\xA0a', O200K, 1, 5, 0)
        self.refused(b'a\xF0\x9F\x94\xA5', O200K, 4, 5, 1)

    def test_several_at_once(self):
        self.refused(b'\xFF' * (LONGEST + 1), MODE3, LONGEST + 2, 1, 0)
        self.refused(b'\xFF' * (LONGEST + 1), O200K, LONGEST + 2, 2, LONGEST)
        self.refused(b'a\x80', O200K, 9, 3, 1)

    def test_words(self):
        with self.assertRaisesRegex(ValueError, '^refused 3 at 4: the text is not UTF-8$'):
            cut(b'THD \xFF')
        self.assertEqual(sorted(Refused.REASONS), [1, 2, 3, 4, 5, 6])

    def test_pickled(self):
        again = pickle.loads(pickle.dumps(Refused(3, 41)))
        self.assertEqual((again.number, again.place), (3, 41))


class Classes(unittest.TestCase):
    def test_classes(self):
        rows = {'A': Class.UPPER, '\u01C5': Class.UPPER, 'a': Class.LOWER, '\u05D0': Class.CASELESS, '\u0301': Class.MARK,
                '\u00B2': Class.NUMBER, '\u3000': Class.WHITESPACE, '\U0010FFFF': Class.OTHER}
        for character, expected in rows.items():
            self.assertIs(class_of(ord(character)), expected)

    def test_no_scalar(self):
        for c in (0xD800, 0xDFFF, 0x110000, 2 ** 32 + 65):
            with self.assertRaises(Refused) as caught:
                class_of(c)
            self.assertEqual((caught.exception.number, caught.exception.place), (6, 0))


class Library(unittest.TestCase):
    def import_error(self, file):
        ran = subprocess.run([sys.executable, '-c', 'import njuxaleet'], cwd=HERE, env={**os.environ, 'NJUXALEET_SO': file},
                             capture_output=True, text=True)
        self.assertEqual(ran.returncode, 1)
        return ran.stderr.splitlines()[-1]

    def test_missing(self):
        error = self.import_error(os.path.join(HERE, 'missing.so'))
        self.assertRegex(error, '^ImportError: .*missing.so; build it with the command tools/bindings')

    def test_another_file(self):
        self.assertRegex(self.import_error(__file__), '^ImportError: .* is not the shared library')


if __name__ == '__main__':
    unittest.main()
