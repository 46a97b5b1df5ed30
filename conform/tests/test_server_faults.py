"""Each fault that is planted in a server around the library's controller is found within 300 programs, at its place and under the rule that it breaks."""
import multiprocessing
import unittest

from controller.rules import SECTIONS
from tests.common import needs_library
from tests.finding import Found, fault_of, found


def found_at(number: int) -> Found:
    from controller.server_faults import FAULTS

    return found(FAULTS[number].server, FAULTS[number].rule)


@needs_library
class Planted(unittest.TestCase):
    def test_22_faults_are_found_at_their_places_by_name(self) -> None:
        from controller.server_faults import FAULTS

        self.assertEqual(len(FAULTS), 22)
        with multiprocessing.get_context("fork").Pool(2) as pool:
            for fault, it in zip(FAULTS, pool.imap(found_at, range(len(FAULTS)))):
                self.assertEqual("", fault_of(it, fault.name, fault.places, fault.rule))
                print(f"  {fault.name:<28}{it.first:<26}{fault.rule} ({SECTIONS[fault.rule]}): {it.named}")


if __name__ == "__main__":
    unittest.main()
