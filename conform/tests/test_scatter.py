"""Where scattered data lie: what AHCI 1.3.1, sections 4.2.2 and 4.2.3, wants of a list, and that each kind of it comes."""
import random
import unittest
from typing import List, Tuple

from judge.scatter import PAGE, Draws, Guest, Laid, NoRoom, decorated, lengths_of, prdt_of, scattered
from judge.window import Layer, memory_of
from judge.model import Sent

LOW, HIGH = (0x10000000, 0x80000000), (0x100000000, 0x10000000)
GUEST = Guest((LOW, HIGH), 65_535, True)
TOTALS = [512, 1024, 4096, 512 * 129, 512 * 8192]


def laid(seed: int, total: int, guest: Guest = GUEST, tag: int = 3) -> Laid:
    return scattered(Draws(str(seed)), guest, tag, total)


class Lists(unittest.TestCase):
    def all(self) -> List[Tuple[int, Laid]]:
        return [(total, laid(seed, total)) for total in TOTALS for seed in range(60 if total < 1 << 20 else 12)]

    def test_entries_are_even_and_lie_apart_in_the_slots_own_rooms(self) -> None:
        for total, place in self.all():
            entries = len(place.pieces)
            self.assertTrue(1 <= entries <= 65_535)
            taken = sorted([*place.pieces, (place.table_at, 0x80 + 16 * entries)])
            for (address, length), (after, _) in zip(taken, taken[1:]):
                self.assertLessEqual(address + length, after)
            for address, length in place.pieces:
                self.assertTrue(address % 2 == 0 and length % 2 == 0 and 2 <= length <= 4 << 20, (address, length))
                self.assertTrue(any(first <= address and address + length <= first + size for first, size in place.rooms))
            self.assertEqual(place.table_at % 128, 0)
            self.assertGreaterEqual(sum(length for _, length in place.pieces), total)

    def test_lengths_have_the_sum_that_is_wanted(self) -> None:
        for total in [*TOTALS, 2, 512 * 65_536]:
            for seed in range(20):
                self.assertEqual(sum(lengths_of(Draws(str(seed)), total, 65_535)), total)

    def test_each_kind_of_a_list_comes(self) -> None:
        places = self.all()
        lists = [place.pieces for _, place in places]
        self.assertIn(1, map(len, lists))
        self.assertTrue(any(17 <= len(it) <= 64 for it in lists))
        self.assertGreater(max(map(len, lists)), 1000)
        self.assertEqual(min(length for it in lists for _, length in it), 2)
        self.assertEqual(max(length for it in lists for _, length in it), 4 << 20)
        self.assertTrue(any(it != sorted(it) for it in lists), "out of order")
        self.assertTrue(any((address + length) % PAGE == 0 for it in lists for address, length in it), "at a page's end")
        self.assertTrue(any(address // PAGE != (address + length - 1) // PAGE for it in lists for address, length in it if length < PAGE), "across a page's end")
        self.assertTrue(any(address >= 1 << 32 for it in lists for address, _ in it), "above 4 GiB")
        self.assertTrue(any(place.table_at >= 1 << 32 for _, place in places), "a table above 4 GiB")
        self.assertTrue(any(sum(length for _, length in place.pieces[:-1]) >= total for total, place in places), "entries after the data")

    def test_without_s64a_nothing_lies_above_4_gib(self) -> None:
        for seed in range(60):
            place = laid(seed, 4096, GUEST._replace(high=False))
            self.assertTrue(all(address + length <= 1 << 32 for address, length in [*place.pieces, (place.table_at, 0)]))

    def test_slots_share_no_byte(self) -> None:
        for memory in (GUEST.memory, [(0x0F001000, 0x84000000)], [(0x100000, 64 << 20), (0x100000000, 64 << 20)], [(0x10000000, 0x40000000)]):
            rooms = sorted(room for tag in range(32) for room in laid(1, 512, GUEST._replace(memory=memory), tag).rooms)
            for (address, length), (after, _) in zip(rooms, rooms[1:]):
                self.assertLessEqual(address + length, after)
                self.assertTrue(any(first <= address and address + length <= first + size for first, size in memory))

    def test_a_slots_part_has_its_plain_window_too(self) -> None:
        cfis = bytes.fromhex("2780600107000040000000000000000000000000")
        for memory in (GUEST.memory, [(0x0F001000, 0x84000000)], [(0x100000, 64 << 20)], [(0x10000000, 0x40000000)]):
            for tag in range(32):
                guest = GUEST._replace(memory=memory)
                entry = (0x10001000 + tag * 0x04000000).to_bytes(8, "little") + bytes(4) + (511).to_bytes(4, "little")
                window = Layer("plain", "1", guest).queued(tag, "read 0 7 1", Sent(bytes(32), cfis, [entry]), False, 7, bytes(512))
                rooms = laid(1, 512, guest, tag).rooms
                for address, length in [*window.pieces, (window.table_at, len(window.table))]:
                    self.assertTrue(any(first <= address and address + length <= first + size for first, size in rooms), (tag, memory))

    def test_a_list_has_as_many_entries_as_there_can_be_now_and_then(self) -> None:
        self.assertEqual(max(len(laid(seed, 512 * 300).pieces) for seed in range(80)), 65_535)
        self.assertEqual(max(len(laid(seed, 4096, GUEST._replace(entries=64)).pieces) for seed in range(80)), 64)

    def test_an_emulator_that_takes_few_entries_gets_few(self) -> None:
        for seed in range(60):
            for total in TOTALS:
                self.assertLessEqual(len(laid(seed, total, GUEST._replace(entries=64)).pieces), 64)

    def test_too_little_memory_is_told(self) -> None:
        with self.assertRaisesRegex(NoRoom, "a command needs more memory than the adapter offers a slot"):
            laid(1, 512 * 8192, Guest(((0x100000, 32 << 20),), 65_535))
        with self.assertRaisesRegex(NoRoom, "too little memory"):
            laid(1, 512, Guest(((0x100000, 4096),), 65_535))

    def test_the_same_seed_lays_in_the_same_way(self) -> None:
        self.assertEqual(laid(7, 4096), laid(7, 4096))
        self.assertNotEqual(laid(7, 4096), laid(8, 4096))
        random.seed(1)
        first = laid(7, 4096)
        random.seed(2)
        self.assertEqual(first, laid(7, 4096))


class Bits(unittest.TestCase):
    def test_entries_have_i_and_reserved_bits_and_the_length(self) -> None:
        pieces = [(0x10000000 + 512 * at, 512) for at in range(200)]
        for dirty in (False, True):
            last = [int.from_bytes(it[12:16], "little") for it in prdt_of(Draws("1"), pieces, dirty)]
            self.assertEqual({it & 0x3FFFFF for it in last}, {511})
            self.assertEqual({it >> 31 for it in last}, {0, 1})
            self.assertEqual(any(it >> 22 & 0x1FF for it in last), dirty)

    def test_a_decorated_command_is_the_same_command(self) -> None:
        """Register - Host to Device: type, C, command, features, LBA, bit 6 of the device and the tag stay (ACS-3, WRITE FPDMA QUEUED)."""
        cfis = bytes.fromhex("2780610107000040000000020800000000000000")
        seen = 0
        for seed in range(50):
            fis = decorated(Draws(str(seed)), cfis, True)
            self.assertEqual((fis[:7], fis[7] & 0x70, fis[8:12], fis[12] >> 3, fis[15]), (cfis[:7], 0x40, cfis[8:12], 1, 0))
            seen |= fis[7] & 0x80 | fis[13] >> 6
        self.assertEqual(seen, 0x83)  # FUA and both bits of PRIO

    def test_a_command_that_is_issued_again_lies_elsewhere(self) -> None:
        cfis = bytes.fromhex("2780610107000040000000000000000000000000")
        layer = Layer("scattered", "1", GUEST)
        window = layer.queued(0, "write 0 7 1 aa", Sent(bytes(32), cfis, []), True, 7, b"\xaa" * 512)
        again = layer.again(window, "reissue 0")
        self.assertNotEqual(again.pieces, window.pieces)
        self.assertEqual((again.table[:0x80], again.text, again.lba), (window.table[:0x80], window.text, 7))
        self.assertEqual(memory_of(again).gather(again.used), window.text)

    def test_guards_stand_around_all_pieces(self) -> None:
        cfis = bytes.fromhex("2780600107000040000000000000000000000000")
        for seed in range(40):
            window = Layer("scattered", str(seed), GUEST).queued(0, "read 0 7 1", Sent(bytes(32), cfis, []), False, 7, bytes(512))
            memory = memory_of(window)
            for address, length in window.pieces:
                room, size = next(it for it in window.rooms if it[0] <= address < sum(it))
                before, after = max(room, address - 2), min(room + size, address + length + 2)
                self.assertEqual(len(memory.take(before, after - before)), after - before)


if __name__ == "__main__":
    unittest.main()
