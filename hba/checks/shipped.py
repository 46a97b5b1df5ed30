"""Checks of Linux under each script of host/events, as surviving.py has them for single events."""
from __future__ import annotations

import glob
import os
from typing import Any, List, Sequence

from suite import Check, expect
import surviving
from surviving import BUSY_MACHINE, FAILED, MANY, NONE, ONE, RESET, SHIPPED, SLOW, SOME, UNFOUND, Event

UNC, IDNF, ABRT = (rf"error: \{{ {name} \}}" for name in ("UNC", "IDNF", "ABRT"))
UNCHECKED = r"failed to read log page 10h"


def shipped(name: str, errors: str, says: Sequence[str] = (), **more: Any) -> Event:
    """A script that is shipped; both kernels do the same unless another row says what one of them does."""
    return Event(f"{name}.events", f"{name}.events", errors, says, **more)


EVENTS: Sequence[Event] = (
    # commands that fail
    shipped("one_bad_sector", SOME, [UNC], again=SOME, words="blocks=128 later=3000"),
    shipped("a_sector_that_heals", SOME, [UNC], words="blocks=128"),
    shipped("a_write_that_fails", NONE, [IDNF]),
    shipped("error_in_a_full_queue", ONE, [UNC]),
    shipped("two_errors_in_a_row", ONE, [UNC], pick="low", words=BUSY_MACHINE),  # the second one is held up, and issued again as another command
    shipped("a_storm_of_errors", SOME, [UNC]),
    shipped("one_in_a_hundred", SOME, [UNC], again=SOME),
    shipped("a_disk_that_wears_out", SOME, [UNC], again=SOME, words="requests=9000"),
    shipped("a_tag_that_fails", NONE, [ABRT]),
    shipped("a_slow_disk", NONE, is_quiet=True, words=BUSY_MACHINE),
    shipped("fails_again_during_recovery", NONE, [UNCHECKED, RESET], words="libata.force=nodmalog"),  # else it reads the log by READ LOG DMA EXT
    shipped("an_aborted_flush", NONE, [ABRT], words="flushes=1", options=["--write-cache"], results=[("flush", "right")],
            instead=[("FLUSH CACHE EXT", "FLUSH CACHE")]),  # as Linux flushes a disk of less than 2^28 sectors
    shipped("identify_fails", UNFOUND, is_quiet=True, words="appears=60"),
    shipped("identify_stays_busy", NONE, [r"qc timeout", r"failed to IDENTIFY"]),
    shipped("a_command_without_an_answer", NONE, [RESET]),
    shipped("a_device_fault", NONE, [r"status: \{ DRDY DF ERR \}"], is_alone=True),
    shipped("a_fault_without_an_error", NONE, is_quiet=True, wrong=1, is_alone=True),
    shipped("a_short_read", NONE, is_quiet=True, wrong=3, is_alone=True, words="blocks=128"),
    # log 10h
    shipped("a_log_of_another_tag", ONE, [UNC]),
    shipped("a_log_without_a_tag", NONE, [UNCHECKED], kernels=("kernel",)),
    shipped("a_log_without_a_tag", SOME, [UNCHECKED], kernels=("current",)),
    shipped("a_log_with_a_wrong_sum", ONE, [UNC]),
    # interrupts
    shipped("a_lost_interrupt", NONE, [RESET]),
    shipped("late_interrupts", NONE, is_quiet=True),
    shipped("interrupts_without_a_cause", NONE, is_quiet=True),
    shipped("an_error_without_an_interrupt", NONE),
    # memory
    shipped("memory_that_is_gone", NONE, [RESET, r"host bus error"]),
    shipped("memory_with_wrong_data", NONE, [RESET, r"host bus error"]),
    # the link, the disk and the interface
    shipped("a_port_without_a_disk", NONE, [r"SATA link down \(SStatus 0 SControl 300\)"], instead=[("wait 20s", "wait 40*s")]),  # until Linux has looked
    shipped("unplug_in_a_full_queue", NONE, [RESET]),
    shipped("another_disk_in_the_slot", MANY, [RESET, r"ata1\.00: serial number mismatch '00000001' != '00000002'", r"ata1\.00: disable"], is_exchanged=True),
    shipped("a_link_that_is_lost", NONE, [RESET]),
    shipped("crc_error_then_ok", NONE, [RESET, r"interface fatal error"]),
    shipped("recovered_errors", NONE, is_quiet=True),
    shipped("a_foreign_signature", NONE, [RESET], instead=[("", "on 1000th any do fatal_crc_error")]),  # a second COMRESET
    shipped("three_resets_that_fail", NONE, [RESET, FAILED], kernels=("kernel",)),
    shipped("three_resets_that_fail", NONE, [RESET, SLOW], kernels=("current",)),
    shipped("a_late_signature", NONE, [RESET]),
    shipped("a_port_that_stops_slowly", NONE, [RESET]),
    shipped("a_slow_start", NONE, is_quiet=True),
    # FISes that no command asks for
    shipped("fises_that_nothing_asks_for", NONE, is_quiet=True),
    shipped("an_unknown_fis", NONE, [RESET, r"unknown FIS 00000055"]),
    # power: in the midst of requests, whenever a machine has come to them
    shipped("a_loss_of_power", MANY, [RESET], again="no disk", options=["--write-cache"], instead=[("on time 10s", "on 1000th any")]),
    shipped("power_is_lost", MANY, [RESET], again="no disk", instead=[("on time 5s", "on 1000th any")]),
)


def all_of_them(_: str) -> str:
    """Each script of host/events is one of these."""
    names = {os.path.basename(it) for it in glob.glob(os.path.join(SHIPPED, "*.events"))}
    expect(names == {it.script for it in EVENTS}, f"no row: {sorted(names - {it.script for it in EVENTS})}; no script: {sorted({it.script for it in EVENTS} - names)}")
    return f"{len(names)} scripts"


def cases() -> List[Check]:
    return [surviving.check_of(folder, event) for folder in surviving.KERNELS for event in EVENTS if folder in event.kernels]


CHECKS = [Check(all_of_them, title="Linux and each script that is shipped"), *cases()]
