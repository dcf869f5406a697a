"""Name scripts, beside rows from outside and the model's reading."""
import random

from .case import FIRST, NEW, UPDATE, name_script, unittest

from common import DATA, bytes_of, rows
from model import operation_of
from namecoin_snapshot.name_scripts import pushes_of

KINDS = {"New": NEW, "First": FIRST, "Update": UPDATE}


class NameScripts(unittest.TestCase):
    def test_rows(self):
        count = 0
        for number, (script, kind, *pushes) in rows(DATA / "name_scripts.tsv"):
            wanted = None if kind == "none" else [bytes_of(it) for it in pushes]
            with self.subTest(row=number):
                self.assertEqual(pushes_of(bytes_of(script)), wanted)
                self.assertTrue(wanted is None or bytes_of(script)[:1] == KINDS[kind])
            count += 1
        self.assertGreater(count, 90)

    def test_as_the_model_reads(self):
        """Good scripts of each form, cut at each byte, and with each of their bytes changed."""
        chance = random.Random(1)
        for number in range(200):
            kind, count = chance.choice(((NEW, 1), (FIRST, 3), (UPDATE, 2), (UPDATE, 3), (b"\x54", 2)))
            lengths = (0, 1, 20, 75, 76, 255, 256) if number < 20 else (3,)
            parts = [chance.randbytes(chance.choice(lengths)) for _ in range(count)]
            script = name_script(kind, *parts) + chance.randbytes(chance.randrange(3))
            for text in [script, *(script[:it] for it in range(len(script)))]:
                self.compare(text)
            for place in range(min(len(script), 60)):
                for byte in (0, 0x4B, 0x4C, 0x4D, 0x4E, 0x4F, 0x51, 0x61, 0x6D, 0x75, chance.getrandbits(8)):
                    self.compare(script[:place] + bytes([byte]) + script[place + 1 :])

    def compare(self, script):
        operation = operation_of(script)
        self.assertEqual(pushes_of(script), None if operation is None else operation[1:], script.hex())


if __name__ == "__main__":
    unittest.main()
