"""Memory: it grows by less than 300 bytes for each name (bench/snapshot measures it with 1,000,000)."""
from .case import Case, unittest
from .measured import memory_of_a_name, used, write_many
from .node_files import NEWER, OLDER

FEW, MANY, MOST = 1000, 30_000, 300


class Memory(Case):
    def test_a_name(self):
        self.assertLess(memory_of_a_name(self.room, NEWER, FEW, MANY, False), MOST)

    def test_other_outputs(self):
        """They take none."""
        path, memory = self.room / "others", []
        # Each is longer than a piece that is read.
        for others in (MANY, 2 * MANY):
            write_many(path, OLDER, FEW, others, True)
            memory.append(used(path).memory)
        self.assertLess(memory[1] - memory[0], 10 * MANY)


if __name__ == "__main__":
    unittest.main()
