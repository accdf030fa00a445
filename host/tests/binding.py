"""The tests of ingthabor.py."""
import os
import sys
import unittest

HERE = os.path.dirname(os.path.abspath(__file__))
sys.dont_write_bytecode = True
sys.path.insert(0, os.path.dirname(HERE))
import ingthabor


def content(name):
    with open(os.path.join(HERE, name), "rb") as file:
        return file.read()


class Binding(unittest.TestCase):
    def refused(self, refusal, line, *words):
        with self.assertRaises(ingthabor.Refused) as raised:
            ingthabor.run(*words)
        self.assertEqual((raised.exception.refusal, raised.exception.line), (refusal, line))

    def test_printed_example(self):
        self.assertEqual(ingthabor.run(content("example.txt")), content("example.listing"))

    def test_empty_session(self):
        self.assertEqual(ingthabor.run(b""), b"nodes=0 mark=0 active=1\n")

    def test_longest_listing(self):
        session = b"op=7 left=c0000000000000000\n" + b"op=7 left=n0\n" * 1023
        self.assertEqual(len(ingthabor.run(session + b"mark=set\n")), ingthabor.MOST_LISTING)
        self.refused(8, 0, session + b"mark=set\n", ingthabor.MOST_LISTING - 1)
        self.refused(5, 1025, session + b"op=7 left=n0\n")

    def test_room(self):
        self.assertEqual(len(ingthabor.run(b"", 24)), 24)
        self.refused(8, 0, b"", 23)
        self.refused(8, 0, b"", 0)
        self.assertRaises(ValueError, ingthabor.run, b"", -1)

    def test_refused_lines(self):
        self.refused(3, 2, b"leaf=4008000000000000\nop=7 left=n1\n")
        self.refused(9, 2, b"leaf=4008000000000000\nop=8 left=n0\n")
        self.refused(9, 1, b"mark=set\0\n")
        self.refused(9, 1, b"mark=set")
        self.refused(9, 0, b"\n" * 65537)

    def test_what_is_no_session(self):
        for session in ("mark=set\n", None, 7):
            self.assertRaises(TypeError, ingthabor.run, session)


if __name__ == "__main__":
    unittest.main()
