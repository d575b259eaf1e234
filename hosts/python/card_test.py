"""Checks the Python module on the built library."""
import concurrent.futures
import ctypes
import unittest

import card

VERSION = b"R,1FC,01000000\n"


class Runs(unittest.TestCase):
    def expect(self, script, lines, output, code, room=65_536):
        self.assertEqual(card.run(script, room), card.Run(lines, output, code))

    def test_ends(self):
        self.expect(b"", 0, b"", card.Code.DONE)
        self.expect(b"R,1FC", 1, VERSION, card.Code.DONE)
        self.expect(b"W,1F8,0000BEEF\nR,1F8\n", 2, b"R,1F8,0000BEEF\n", card.Code.DONE)
        self.expect(b"R,1F8\n", 1, b"R,1F8,00000000\n", card.Code.DONE)  # a new card each time

    def test_refusals(self):
        self.expect(b"R,1FC\nR,200\nR,1FC\n", 1, VERSION, card.Code.OFFSET)
        self.expect(b"W,018,00000500\n", 0, b"", card.Code.SETTING)
        self.expect(b"\n" * (card.MAX_SCRIPT + 1), 0, b"", card.Code.LENGTH)
        self.expect(b"\n", 0, b"", card.Code.FORM)
        self.expect(b"R,1fc\n", 0, b"", card.Code.FIELD)
        self.expect(b"R,1FC\0\n", 0, b"", card.Code.FIELD)  # byte 0 ends nothing

    def test_room(self):
        self.expect(b"T,1,000000,00\n", 1, b"", card.Code.DONE, room=0)
        self.expect(b"R,1FC\n", 0, b"", card.Code.FULL, room=0)
        self.expect(b"R,1FC\n", 0, b"", card.Code.FULL, room=14)
        self.expect(b"R,1FC\n", 1, VERSION, card.Code.DONE, room=15)
        self.expect(b"R,1FC\n" * 4370, 4369, VERSION * 4369, card.Code.FULL)
        reads = b"\n".join([b"R,1FC"] * (card.MAX_OUTPUT // card.READ_LINE))
        self.expect(reads, 10_922, VERSION * 10_922, card.Code.DONE, room=card.MAX_OUTPUT)
        with self.assertRaises(ValueError):
            card.run(b"", room=-1)

    def test_bytes_like(self):
        for script in (bytearray(b"R,1FC\n"), memoryview(b"R,1FC\n")):
            self.expect(script, 1, VERSION, card.Code.DONE)
        for wrong in ("R,1FC\n", 5, None):
            with self.assertRaises(TypeError):
                card.run(wrong)

    def test_answers(self):
        run = card.run(b"W,1F8,0000BEEF\nR,1F8\nT,3,000000,00\nR,1FC\n")
        self.assertEqual(run.answers, [(0x1F8, 0xBEEF), (0x1FC, 0x01000000)])
        self.assertEqual(card.run(b"").answers, [])

    def test_check(self):
        run = card.run(b"R,1FC\n")
        self.assertIs(run.check(), run)
        with self.assertRaises(card.Refused) as caught:
            card.run(b"R,1FC\nR,200\n").check()
        self.assertEqual(caught.exception.run.code, card.Code.OFFSET)
        self.assertEqual(str(caught.exception), "line 2: refused with code 1: " + card.Code.OFFSET.cause)
        with self.assertRaisesRegex(card.Refused, "^refused with code 5: "):
            card.run(b"\n" * (card.MAX_SCRIPT + 1)).check()

    def test_every_code_has_a_cause(self):
        for code in card.Code:
            self.assertTrue(code.cause)

    def test_threads(self):
        def count_to(value):
            script = b"W,020,%08X\nW,000,00000002\nW,028,00000002\nT,2000,000000,00\nR,030\n" % value
            return card.run(script).check().answers[0][1]

        with concurrent.futures.ThreadPoolExecutor(4) as pool:
            self.assertEqual(list(pool.map(count_to, range(200))), list(range(200)))


class Layout(unittest.TestCase):
    def test_answer(self):
        """As the C compiler lays out struct card_answer: each field at a multiple of its size."""
        word = ctypes.sizeof(ctypes.c_size_t)
        answer = card._Answer
        self.assertEqual((answer.lines.offset, answer.bytes.offset, answer.code.offset), (0, word, 2 * word))
        self.assertEqual(ctypes.sizeof(answer), 3 * word)


if __name__ == "__main__":
    unittest.main()
