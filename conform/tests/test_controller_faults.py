"""Each fault that is planted in the stand-in's controller is found within 300 programs, at its place and under the rule that it breaks."""
import multiprocessing
import unittest

from controller import cli
from controller.campaign import Worker
from controller.compare import Difference, word
from controller.generate import program
from controller.known import read_known
from controller.rules import RULES, SECTIONS, rules_of
from controller.stand_in.faults import FAULTS
from controller.stand_in.hba import Hba
from tests.common import needs_library
from tests.finding import LEVELS, Found, fault_of, found

CLEAN = 12  # programs of each level that the stand-in plays without a fault


def found_at(number: int) -> Found:
    return found(FAULTS[number].stand_in, FAULTS[number].rule)


class Rules(unittest.TestCase):
    def test_a_fault_names_a_rule_that_is_there(self) -> None:
        from controller.server_faults import FAULTS as of_a_server

        self.assertEqual([], [it.name for it in [*FAULTS, *of_a_server] if it.rule not in SECTIONS])

    def test_each_bit_has_the_first_rule_that_fits(self) -> None:
        stop, ccs = "ST is cleared and PxCI, PxSACT and CCS are 0", "CCS is the slot of the command that was issued last"
        sizes, enable = "an access writes the bytes that it has, and no others", "PxIE is what software writes"
        for place, bits, facts, names in (
            ("PxIS", 0x40000001, "", ["DHRS is set by a D2H Register FIS with I", "TFES is set by ERR in a status"]), ("PxCMD", 0x200, "stops", [stop]), ("PxCMD", 0x200, "starts", [ccs]),
            ("PxIE", 0x100, "write PxIE, access of 1", [sizes]), ("PxIE", 0x100, "write PxIE", [enable]), ("PxTFD", 0x80, "model waits", ["BSY is 1 while a command is under way"]),
            ("PxSACT", 2, "stops", [stop]), ("emulator: C is set and BSY is cleared", 1, "", ["C is set and BSY is cleared"]), ("CAP", 1, "", []),
            ("PxSERR", 0x40000, "write PxSERR", ["bits of PxSERR are cleared by a 1 that is written, and set by events alone"]), ("PxCMD", 8, "", ["CLO reads 0 once BSY and DRQ are cleared"]),
        ):
            self.assertEqual(names, rules_of(word(place, 0, bits, bits), frozenset(facts.split(", "))), place)

    def test_a_fis_that_is_there_has_other_rules_than_one_that_is_not(self) -> None:
        place, block = "a received FIS has its own place in the area", "a PIO Setup FIS has the direction, I and the length of its block"
        for at, name, wrong, rule in (
            ("DMA Setup FIS", "4120", 4, "a DMA Setup FIS has the tag, the direction and the length of its command"), ("DMA Setup FIS", "c5c5", 4, place), ("PIO Setup FIS", "5f60", 16, block),
            ("PIO Setup FIS", "5f60", 15, "E_Status is the status after the data"), ("PIO Setup FIS", "0000", 15, place), ("D2H Register FIS", "3440", 1, "a D2H Register FIS has I and the outputs of its command"),
            ("Set Device Bits FIS", "a140", 4, "a Set Device Bits FIS has the tags that are done"), ("rest of the FIS area", "a140", 4, place),
        ):
            mask = bytearray(28)
            mask[wrong] = 1
            self.assertEqual([rule], rules_of(Difference(at, bytes(28), bytes.fromhex(name).ljust(28, b"\0"), bytes(mask)), frozenset()), f"{at} {name} {wrong}")

    def test_a_rule_has_a_section(self) -> None:
        self.assertEqual([], [it.name for it in RULES if not it.section])


@needs_library
class Planted(unittest.TestCase):
    def test_46_faults_are_found_at_their_places_by_name(self) -> None:
        self.assertEqual(len(FAULTS), 46)
        with multiprocessing.get_context("fork").Pool(2) as pool:
            for fault, it in zip(FAULTS, pool.imap(found_at, range(len(FAULTS)))):
                self.assertEqual("", fault_of(it, fault.name, fault.places, fault.rule))
                print(f"  {fault.name:<28}{it.first:<26}{fault.rule} ({SECTIONS[fault.rule]}): {it.named}")

    def test_without_a_fault_nothing_differs(self) -> None:
        worker = Worker(Hba, read_known(cli.BASE))
        for level in LEVELS:
            for seed in range(1, CLEAN + 1):
                judged = worker.judge(program(seed, level))
                self.assertNotEqual(judged.end, "new", f"{level} {seed}: {[it.difference.place for it in judged.new]}")


if __name__ == "__main__":
    unittest.main()
