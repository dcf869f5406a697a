"""No save is asked for where the disk of the server's folder has no room for it."""
import os

from .case import Case, unittest

from namecoin_feeder.room import ordered, room_for_a_save, spoken_bytes

# The header of the files: an open gate, the marker, profile, height and hash, and a host; behind it the selections and a closed gate.
HEADER, CLOSED = b"\x01NMCIDX1\n\x01" + bytes(36) + b"\x0bns.example.", b"\0"
# No disk has so much room.
TOO_MUCH = 1 << 60


class Rooms(Case):
    def folder(self, saves, one, two):
        """A folder with so many saves, and areas of these lengths, which take nothing of the disk."""
        folder = self.room / "files"
        folder.mkdir(exist_ok=True)
        selections = b"".join(b"\x01" + (1).to_bytes(4, "little") + bytes([2 - it % 2]) for it in range(saves))
        (folder / "nmc.0").write_bytes(HEADER + selections + CLOSED)
        for name, length in (("nmc.1", one), ("nmc.2", two)):
            with open(folder / name, "wb") as file:
                file.truncate(length)
        return folder

    def test_the_area_that_counts(self):
        for saves in range(5):
            wanted = ("nmc.1", "nmc.2") if saves % 2 == 0 else ("nmc.2", "nmc.1")
            self.assertEqual(ordered(self.folder(saves, 9, 9)), wanted)
            room = room_for_a_save(self.folder(saves, 1000, 2000))
            self.assertEqual(room.wanted, 1000 if saves % 2 == 0 else 2000)

    def test_a_selection_that_was_cut_short(self):
        """Its gate is closed, as where the program was killed within it: it counts for nothing, whatever stands behind it."""
        folder = self.folder(1, 9, 9)
        with open(folder / "nmc.0", "ab") as file:
            file.write((1).to_bytes(4, "little") + b"\x01" + CLOSED)
        self.assertEqual(ordered(folder), ("nmc.2", "nmc.1"))

    def test_what_the_other_area_holds_counts(self):
        folder, taken = self.folder(0, 9, 0), os.urandom(3 << 20)
        free = room_for_a_save(folder).there
        (folder / "nmc.2").write_bytes(taken)
        self.assertLess(abs(room_for_a_save(folder).there - free), 1 << 20)

    def test_an_image_that_the_area_hasn_t_yet(self):
        folder = self.folder(0, 9, 9)
        (folder / "nmc.1").write_bytes((5000).to_bytes(8, "little") + b"\0")
        self.assertEqual(room_for_a_save(folder).wanted, 5000)

    def test_nothing_to_look_at(self):
        self.assertIsNone(room_for_a_save(self.room / "none"))
        folder = self.folder(0, 9, 9)
        (folder / "nmc.0").write_bytes(b"")
        self.assertIsNone(room_for_a_save(folder))

    def test_spoken(self):
        told = [spoken_bytes(it) for it in (0, 1023, 1024, 5 << 20, 3 << 30)]
        self.assertEqual(told, ["0 bytes", "1023 bytes", "1.0 KiB", "5.0 MiB", "3.0 GiB"])

    def test_no_save_without_room(self):
        """It is told, blocks go on, and no save is asked for."""
        self.node.move(self.chains.grow(self.chains.first, 30))
        run = self.start("--files", str(self.folder(0, TOO_MUCH, 9)), "--save-every", "5")
        self.heard(run, "of room for it, and it may want 1073741824.0 GiB; it is looked at again in 1 min 0 s")
        self.reaches(self.chains.grow(self.node.tip, 20))
        self.assertEqual(self.server.saves, [])
        self.assertIsNone(run.poll())
        self.assert_same()

    def test_a_save_with_room(self):
        self.node.move(self.chains.grow(self.chains.first, 30))
        self.feed("--files", str(self.folder(0, 9, TOO_MUCH)))
        self.assertEqual(self.server.saves, [0])
        self.assert_same()

    def test_a_folder_that_isn_t_there(self):
        """As of a server on another machine: a save is asked for as ever."""
        self.node.move(self.chains.grow(self.chains.first, 30))
        self.feed("--files", str(self.room / "none"))
        self.assertEqual(self.server.saves, [0])


if __name__ == "__main__":
    unittest.main()
