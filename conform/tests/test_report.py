"""How a difference is shown: bits, fields, bytes, and what of it the list excuses."""
import unittest
from typing import List

from judge.differences import Difference, differs
from judge.judge import Judged, judge
from judge.known import NOTHING, known_of
from judge.model import Step
from judge.report import difference_lines, differences_text
from judge.shape import spans, value
from stand_in.faults import named
from stand_in.port import StandIn
from tests.common import stored

SERVE = Step(1, "serve 0", "completed 2", [], None, {}, {}, {})


def difference(place: str, expected: bytes, got: bytes, note: str = "") -> Difference:
    return Difference(place, expected, got, differs(expected, got), note)


def text(*them: Difference) -> List[str]:
    return [line.strip() for line in difference_lines(SERVE, list(them))]


class Blocks(unittest.TestCase):
    def test_the_rows_around_the_first_and_the_last_byte_are_shown(self) -> None:
        got = bytearray(512)
        got[0x1B], got[0x1E4] = 0xAA, 0xBB
        lines = text(difference("data of tag 3", bytes(512), bytes(got), "byte 1bh of LBA 7"))
        self.assertEqual(lines[2:], [
            "2 of 512 bytes differ", "first at 1bh",
            "expected  000010  00 00 00 00 00 00 00 00 00 00 00 00 00 00 00 00",
            "got       000010  00 00 00 00 00 00 00 00 00 00 00 aa 00 00 00 00", "^^", "last at 1e4h",
            "expected  0001e0  00 00 00 00 00 00 00 00 00 00 00 00 00 00 00 00",
            "got       0001e0  00 00 00 00 bb 00 00 00 00 00 00 00 00 00 00 00", "^^", "note      byte 1bh of LBA 7"])

    def test_log_10h_is_shown_by_its_fields(self) -> None:
        page = bytearray(512)
        page[3], page[4], page[511] = 0x40, 7, 0xB9
        lines = text(difference("log 10h", bytes(page), bytes(512)))
        for part in ("error: expected 40h, got 00h", "LBA: expected 000000000007h, got 000000000000h", "checksum: expected b9h, got 00h"):
            self.assertIn(part, lines)

    def test_many_sectors_are_one_place_with_their_numbers(self) -> None:
        lines = text(*(difference(f"disk, sector {at}", bytes(512), b"\1" * 512) for at in (5, 6, 7, 9)))
        self.assertEqual((sum("bytes differ" in it for it in lines), lines[-1]), (1, "and 3 more: 6 to 7, 9"))

    def test_many_blocks_of_memory_are_one_place(self) -> None:
        lines = text(*(difference("memory beside the data of tag 3", bytes(64), b"\1" * 64) for _ in range(4)))
        self.assertEqual((sum("bytes differ" in it for it in lines), lines[-1]), (1, "and 3 more"))


class Fields(unittest.TestCase):
    def test_a_fis_is_shown_by_its_fields(self) -> None:
        lines = text(difference("Set Device Bits FIS", bytes.fromhex("a140400005000000"), bytes.fromhex("a100410004000000")))
        for part in ("I: expected 40h, got 00h", "status: expected 40h, got 41h (ERR)", "SActive: expected 00000005h, got 00000004h (tag 0)"):
            self.assertIn(part, lines)

    def test_words_of_the_identify_page_have_their_names_and_texts(self) -> None:
        self.assertEqual(value("identify word 27", b"QE"), '5145  "QE"')
        lines = text(*(difference(f"identify word {at}", b"\0\0", b"\0\1") for at in (60, *range(100, 104), *range(120, 130))))
        self.assertIn("differs   sectors, 28 bits", lines)
        self.assertEqual(lines[-1], "and 7 more: 123 to 129")

    def test_prdbc_is_shown_with_its_slot(self) -> None:
        judged = judge("queue", stored(), type("It", (StandIn,), {"send_page": counting}), NOTHING)
        lines = [line.strip() for line in differences_text(judged)]
        self.assertIn("got       000001ff  511 bytes", lines)
        self.assertTrue(any(line.startswith("note      slot 0 (laid ") for line in lines))

    def test_spans_are_few(self) -> None:
        self.assertEqual(spans([1, 2, 3, 7]), "1 to 3, 7")
        self.assertEqual(spans(list(range(0, 40, 2))), "0, 2, 4, 6, 8, 10, 12, 14 and 12 more")


def counting(port: StandIn, tag: int, page: bytes) -> None:
    """PRDBC one too small."""
    StandIn.send_page(port, tag, page)
    port.memory.write(0x10000 + 4, (511).to_bytes(4, "little"))


LIST = '{"title": "it", "differences": [{"name": "silent", "title": "t", "section": "s", "choice": "model", "emulator": "e", "model": "m", "covers": [{"place": "PxIS", "bits": "00000008"}]}]}'


class Loud(StandIn):
    """No SDBS, as the list knows, and no TFES."""

    def receive_bits(self, fis: bytes) -> None:
        super().receive_bits(fis)
        self.words[0x110] &= ~0x40000008


class Excused(unittest.TestCase):
    def judged(self) -> Judged:
        return judge("queue", stored(), Loud, known_of(LIST, "list"))

    def test_bits_that_the_list_excuses_are_named_beside_those_that_are_new(self) -> None:
        lines = [line.strip() for line in differences_text(self.judged())]
        self.assertIn("differs   TFES", lines)
        self.assertIn("excused   SDBS by silent", lines)

    def test_whose_rule_it_is(self) -> None:
        lines = [line.strip() for line in differences_text(judge("queue", stored(), named("error_clears_sact"), NOTHING))]
        self.assertIn("rule      the standard's rule", lines)


class Untouched(unittest.TestCase):
    def test_a_sector_that_no_command_writes_is_reported_at_the_line_where_it_changed(self) -> None:
        class Stray(StandIn):
            def complete_together(self, tags):  # type: ignore[no-untyped-def]
                done = super().complete_together(tags)
                if done:
                    self.disk.put_sector(999, b"\1" * 512)
                return done

        judged = judge("queue", stored(), Stray, NOTHING)
        self.assertEqual((judged.trace.steps[judged.step].line, [it.place for it in judged.new]), ("serve 0", ["disk, sector 999"]))
        self.assertIn("no command of this line writes this sector", "\n".join(differences_text(judged)))


if __name__ == "__main__":
    unittest.main()
