"""The tools of a real system on the disk: what they print is what ACS-3 and the options say, and no tool complains of this disk."""
from __future__ import annotations

import re
from typing import Dict, List, NamedTuple, Sequence, Tuple

from errors import ENDED, MEDIUM
from harness import Guest, blank, digest, linux
from images import pattern
from suite import Check, Failed, expect

SECTORS = 1 << 20  # 512 MiB: XFS makes no file system of less than 300
BYTES = 512 * SECTORS
MODEL, SERIAL, FIRMWARE, RPM = "A DISK FOR TOOLS", "TOOLS-0001", "FIRM0123", 7200
OPTIONS = ["--write-cache", "--model", MODEL, "--serial", SERIAL, "--firmware", FIRMWARE, "--rpm", str(RPM)]
DATA = pattern(1 << 20, "tools")
DRAT_AND_RZAT, LOG_DRAT_AND_RZAT = 1 << 14 | 1 << 5, 1 << 39 | 1 << 31  # ACS-3, "IDENTIFY DEVICE", word 69, and "Supported Capabilities" of "IDENTIFY DEVICE data log"


def wide_name(serial: str, model: str) -> int:
    """The world wide name: NAA 3, and 60 bits of a number in base 257 (docs/LAYOUTS.md)."""
    name = 0
    for character in (serial.ljust(20) + model.ljust(40)).encode():
        name = (257 * name + character) % (1 << 60)
    return 3 << 60 | name


NAME = wide_name(SERIAL, MODEL)


class Run(NamedTuple):
    """A tool's run in the guest: what it printed, what Linux wrote meanwhile, and its status."""
    lines: List[str]
    kernel: List[str]
    status: int


# a line that may be a complaint
COMPLAINT = re.compile(r"warning|error|support|invalid|fail|unknown|unavail|mismatch|not set|bad|missing|abort|violat|cannot|illegal|incorrect|checksum|exception"
                       r"|read-only|\bno\b|\bnot\b", re.IGNORECASE)

# such lines of a disk without a fault
GOOD = [r"\s*without error or no self-test has ever ?", r"\s*Self-test supported\.", r"\s*Supports SMART auto save timer\.",
        r"Error logging capability:        \(0x01\)\tError logging supported\.", r"\s*General Purpose Logging supported\.",
        r"SMART support is: (Available - device has SMART capability\.|Enabled|Disabled)",
        r"SMART\s+Log Directory Version 1 \[multi-sector log support\]", r"0x01 +SL +R/O +1  Summary SMART error log",
        r"0x03 +GPL +R/O +1  Ext\. Comprehensive SMART error log", r"0x10 +GPL +R/O +1  NCQ Command Error log",
        r"SMART Extended Comprehensive Error Log Version: 1 \(1 sectors\)", r"No Errors Logged",
        r"No self-tests have been logged\.  \[To run self-tests, use: smartctl -t\]", r"# +\d+  (Short|Extended) offline +Completed without error +00% +0 +-",
        r"Num  Test_Description    Status                  Remaining  LifeTime\(hours\)  LBA_of_first_error",
        r"0x0001  2            0  Command failed due to ICRC error", r"Use smartctl -X to abort test\.",
        r"Command failed and ICRC error bit set in Error register: 0", r"\s*\*?\s*SMART error logging", r"\s*\|\|__ D supports DSN", r"Supported: 10 ?",
        r"Enabled\tSupported:", r"\*?\s*Data Set Management TRIM supported \(limit 8 blocks\)",
        r"Cycle time: no flow control=120ns  IORDY flow control=120ns", r"Device is:        Not in smartctl database .*"]

# what this disk has not, and need not have
LACKS = [r"AAM feature is:   Unavailable", r"DSN feature is:   Unavailable", r"ATA Security is:  Unavailable", r"Wt Cache Reorder: Unavailable",
         r"ATA Version is:   ACS-3 \(minor revision not indicated\)",
         r"No Auto Offline data collection support\.", r"No Offline surface scan supported\.", r"No Conveyance Self-test supported\.", r"No Selective Self-test supported\.",
         r"Selective Self-tests/Logging not supported", r"SCT Commands not supported", r"Pending Defects log \(GP Log 0x0c\) not supported",
         r"cache/buffer size  = unknown", r"Standby timer values: spec'd by Vendor, no device specific minimum"]

# what ACS-3 wants otherwise, or may want: docs/TOOLS.md
DOUBTFUL = [r"Integrity word not set \(found 0x0000, expected 0x[0-9a-f]{2,3}a5\)", r"was completed without error\."]

# hdparm wants sense data of the kind with descriptors, and Linux has those of the fixed format: bytes 8 and 9 are the disk's error and status
UNREAD = r"reading sector 1000: SG_IO: bad/missing sense data, sb\[\]:  70 00 03 00 00 00 00 0a 40 41 00 00 11 04 00 00 00 e8( 00)+"
NOT_FOUND = rf"reading sector {SECTORS}: SG_IO: bad/missing sense data, sb\[\]:  70 00 05 00 00 00 00 0a 10 41 00 00 21( 00)+"
NO_READ = r"dd: /dev/sda: Input/output error"
NO_CACHE, NO_CONVEYANCE = r"Write cache is:   Unavailable", r"Conveyance Self-test functions not supported"
OF_A_RUN = {"sector_bad": [UNREAD], "sector_flagged": [UNREAD], "read_bad": [NO_READ], "beyond": [NOT_FOUND], "plain_settings": [NO_CACHE], "plain_set_settings": [NO_CACHE], "plain_end": [NO_CACHE],
            "plain_cache": [r"SG_IO: bad/missing sense data, sb\[\]:  70 00 0b 00 00 00 00 0a 04 41( 00)+", r"write-caching = not supported"],
            "plain_conveyance": [NO_CONVEYANCE, r"Command \"Execute SMART Conveyance .*\" failed: scsi error aborted command"]}
STATUS = {"read_bad": 1, "skips": 2, "plain_conveyance": 4}  # smartctl(8), "-n standby" and "EXIT STATUS": the disk has no such test

# what Linux writes meanwhile
KERNEL = {"read_bad": [*ENDED, *MEDIUM, r"ata1\.00: configured for UDMA/100", r"res 41/40:00:e8:03:00/00:00:00:00:00/00 Emask 0x409 \(media error\) <F>"],
          "cache_0": [r"sd 0:0:0:0: \[sda\] Write cache: disabled, .*"], "cache_1": [r"sd 0:0:0:0: \[sda\] Write cache: enabled, .*"],
          "awake": [r"ata1\.00: exception Emask 0x0 SAct 0x[0-9a-f]+ SErr 0x0 action 0x6", r"ata1\.00: waking up from sleep", r"ata1: hard resetting link",
                    r"ata1: SATA link up 3\.0 Gbps \(SStatus 123 SControl 300\)",
                    r"ata1\.00: configured for UDMA/100", r"ata1: EH complete"]}
BUSY = [r"hrtimer: interrupt took \d+ ns", r"clocksource: .*", r"sched: RT throttling activated"]  # the machine is
FILE_SYSTEMS = [r"init \(1\): drop_caches: 3", r"(EXT4-fs|XFS) \(sda\): (mounted filesystem|unmounting|Unmounting|Mounting|Ending clean mount).*", r"SGI XFS with .*"]

NAMED = [rf"Device Model:     {MODEL}", rf"Serial Number:    {SERIAL}", rf"Firmware Version: {FIRMWARE}", rf"User Capacity:    {BYTES:,} bytes \[536 MB\]",
         r"Sector Size:      512 bytes logical/physical",
         rf"Rotation Rate:    {RPM} rpm", r"TRIM Command:     Available, deterministic, zeroed", r"ATA Version is:   ACS-3.*", rf"LU WWN Device Id: 3 {NAME >> 36 & 0xFFFFFF:06x} {NAME & (1 << 36) - 1:09x}"]
PASSED = r"SMART overall-health self-assessment test result: PASSED"
HEALTHY = [*NAMED, PASSED, r"APM feature is:   Disabled", r"Rd look-ahead is: Enabled", r"Write cache is:   Enabled", r"SMART support is: Enabled",
           r"General Purpose Log Directory Version 1", r"No Errors Logged",
           r"0x00       GPL,SL  R/O      1  Log Directory", r"0x04       GPL     R/O      2  Device Statistics log",
           r"0x06           SL  R/O      1  SMART self-test log", r"0x07       GPL     R/O      1  Extended self-test log",
           r"0x11       GPL     R/O      1  SATA Phy Event Counters log", r"0x30       GPL     R/O      7  IDENTIFY DEVICE data log",
           r"0x80-0x9f  GPL,SL  R/W     16  Host vendor specific log", r"0x01  0x010  4               0  ---  Power-on Hours",
           r"0x0001  2            0  Command failed due to ICRC error", r"SMART Extended Self-test Log Version: 1 \(1 sectors\)"]
SHORT, LONG = (rf"# +{{}}  {it} offline +Completed without error +00% +0 +-" for it in ("Short", "Extended"))


def features(cache: str = "*", ahead: str = "*", apm: str = "") -> List[str]:
    """What hdparm -I prints of a disk by these settings; * is enabled."""
    has = [("*", "SMART feature set"), ("*", "Power Management feature set"), (cache, "Write cache"), (ahead, "Look-ahead"), ("*", "WRITE_BUFFER command"), ("*", "READ_BUFFER command"),
           ("*" if apm else "", "Advanced Power Management feature set"), ("*", "48-bit Address feature set"), ("*", "Mandatory FLUSH_CACHE"), ("*", "FLUSH_CACHE_EXT"), ("*", "SMART error logging"),
           ("*", "SMART self-test"), ("*", "General Purpose Logging feature set"), ("*", "WRITE_UNCORRECTABLE_EXT command"),
           ("*", "{READ,WRITE}_DMA_EXT_GPL commands"), ("*", "Gen1 signaling speed (1.5Gb/s)"), ("*", "Gen2 signaling speed (3.0Gb/s)"),
           ("*", "Gen3 signaling speed (6.0Gb/s)"), ("*", "Native Command Queueing (NCQ)"), ("*", "Phy event counters"), ("*", "READ_LOG_DMA_EXT equivalent to READ_LOG_EXT"), ("*", "64-bit World wide name"), ("*", "WRITE_{DMA|MULTIPLE}_FUA_EXT"),
           ("*", "WRITE BUFFER DMA command"), ("*", "READ BUFFER DMA command"), ("*", "Data Set Management TRIM supported (limit 8 blocks)"),
           ("*", "Deterministic read ZEROs after TRIM")]
    return [rf"Model Number:       {MODEL}", rf"Serial Number:      {SERIAL}", rf"Firmware Revision:  {FIRMWARE}",
            rf"LBA    user addressable sectors: +{SECTORS}", rf"LBA48  user addressable sectors: +{SECTORS}",
            r"R/W multiple sector transfer: Max = 16\tCurrent = \?", rf"Logical Unit WWN Device Identifier: {NAME:016x}",
            r"Logical/Physical Sector size:           512 bytes", rf"Nominal Media Rotation Rate: {RPM}", r"Queue depth: 32", rf"Advanced power management level: {apm or 'disabled'}",
            *((r"\*\t" if sign else "") + re.escape(name) for sign, name in has)]


# the lines that a run has to have
SAYS: Sequence[Tuple[str, List[str]]] = (
    ("identify", features()), ("health", [PASSED]), ("all", [*HEALTHY, r"No self-tests have been logged\..*"]),
    ("short", [r"Drive command \"Execute SMART Short self-test routine immediately in off-line mode\" successful\.", r"Testing has begun\."]), ("tested", [SHORT.format(1)]),
    ("long", [r"Drive command \"Execute SMART Extended self-test routine immediately in off-line mode\" successful\."]), ("tested_twice", [LONG.format(1), SHORT.format(2)]),
    ("smart_off", [r"SMART Disabled\..*"]), ("smart_is_off", [*NAMED, r"SMART support is: Disabled"]), ("smart_on", [r"SMART Enabled\.", r"SMART Attribute Autosave Enabled\."]),
    ("cache_0", [r"write-caching =  0 \(off\)"]), ("cache_identify_0", features(cache="")), ("cache_1", [r"write-caching =  1 \(on\)"]), ("cache_identify_1", features()),
    ("ahead_0", [r"look-ahead    =  0 \(off\)"]), ("apm_127", [r"APM_level\t= 127"]), ("set_identify", features(ahead="", apm="127")),
    ("ahead_1", [r"look-ahead    =  1 \(on\)"]), ("apm_255", [r"APM_level\t= off"]),
    ("is_standby", [r"drive state is:  standby"]), ("skips", [r"Device is in STANDBY mode, exit\(2\)"]), ("woken", [r"1\+0 records in"]), ("is_woken", [r"drive state is:  active/idle"]),
    ("awake", [r"1\+0 records in"]), ("is_awake", [r"drive state is:  active/idle"]), ("timer", [r"setting standby to 12 \(1 minute\)"]),
    ("bad", [r"Corrupting sector 1000 \(WRITE_UNC_EXT as pseudo\): succeeded"]), ("sector_bad", [UNREAD]),
    ("sector_next", [r"reading sector 1001: succeeded"]), ("read_bad", [NO_READ]), ("repaired", [r"re-writing sector 1000: succeeded"]), ("read_again", [r"1\+0 records in"]),
    ("flagged", [r"Corrupting sector 1000 \(WRITE_UNC_EXT as flagged\): succeeded"]), ("sector_flagged", [UNREAD]), ("beyond", [NOT_FOUND]),
    ("zeroed", [r"re-writing sector 1000: succeeded"]), ("trimmed", [r"trimming 8 sectors from 1 ranges", r"succeeded"]), ("phy", [r"Command failed and ICRC error bit set in Error register: 0", r"Signature device-to-host register FISes due to COMRESET: \d+"]),
    *((name, [r"SCSI Status: Good"]) for name in ("host_pio", "host_dma", "host_smart")),
    ("discard", [rf"0 512 0 1 {BYTES} {FIRMWARE[4:]} {re.escape(MODEL.replace(' ', chr(92) + 'x20'))}"]),
    ("blkdiscard", [rf"/dev/sda: Discarded {BYTES} bytes from the offset 0"]), ("blkdiscard_part", [r"/dev/sda: Discarded 4194304 bytes from the offset 1048576"]),
    ("discarded", [rf"{digest(DATA + bytes(4 << 20) + DATA + bytes(1 << 20))}  -"]),
    ("end", [*HEALTHY, LONG.format(1), SHORT.format(2)]))


# those of a disk as it is without options, but for --rpm 1 and --trim advice
PLAIN: Sequence[Tuple[str, List[str]]] = (
    ("plain_identify", [r"Model Number:       SOFTWARE NCQ DISK", r"Serial Number:      00000001", r"Firmware Revision:  1\.0", r"LBA48  user addressable sectors: +131072",
                        r"Nominal Media Rotation Rate: Solid State Device", r"\*\tLook-ahead", r"Advanced power management level: disabled"]),
    ("plain_settings", [NO_CACHE, r"APM feature is:   Disabled", r"Rd look-ahead is: Enabled"]), ("plain_cache", OF_A_RUN["plain_cache"]),
    ("plain_set", [r"APM set to level 128 .*", r"Read look-ahead disabled", r"Standby timer set to 10 .*"]),
    ("plain_set_settings", [NO_CACHE, r"APM level is:     128 .*", r"Rd look-ahead is: Disabled"]),
    ("plain_offline", [r"Drive command \"Execute SMART off-line routine immediately in off-line mode\" successful\."]), ("plain_conveyance", [NO_CONVEYANCE]),
    ("plain_trim", [r"trimming 8 sectors from 1 ranges", r"succeeded"]), ("plain_discard", [r"0 512 0 0 67108864 1\.0.*"]),
    ("plain_end", [r"Rotation Rate:    Solid State Device", r"User Capacity:    67,108,864 bytes \[67\.1 MB\]", PASSED, r"No Errors Logged",
                   r"No self-tests have been logged\..*", r"TRIM Command:     Available"]))


def runs_of(text: str) -> Dict[str, Run]:
    """What guests/tools.sh has printed."""
    found: Dict[str, Run] = {}
    for name, body, ended, status in re.findall(r"^TOOL (\S+) .*\n((?:.*\n)*?)ENDED (\S+) (\d+)$", text, re.MULTILINE):
        expect(name == ended, f"{name} ended as {ended}")
        kernel = [re.sub(r"^\[ *[\d.]+\] ", "", line[2:]).strip() for line in body.splitlines() if line.startswith("# ")]
        found[name] = Run([line[2:].strip() for line in body.splitlines() if line.startswith("| ")], kernel, int(status))
    return found


def complaints(name: str, run: Run) -> List[str]:
    """What a tool, or Linux meanwhile, says against the disk. A disk that has none of DOUBTFUL is as right."""
    usual = re.compile("|".join([*GOOD, *LACKS, *DOUBTFUL, *OF_A_RUN.get(name, [])]))
    kernel = re.compile("|".join([*FILE_SYSTEMS, *BUSY, *KERNEL.get(name, [])]))
    wrong = [line for line in run.lines if COMPLAINT.search(line) and not usual.fullmatch(line.lstrip("*\t ")) and not usual.fullmatch(line)]
    wrong += [line for line in run.kernel if not kernel.fullmatch(line)]
    return [f"{name}: {it}" for it in [*wrong, *([f"status {run.status}"] if run.status != STATUS.get(name, 0) else [])]]


def missing(runs: Dict[str, Run], says: Sequence[Tuple[str, List[str]]]) -> List[str]:
    return [f"{name}: {it}" for name, wanted in says for it in wanted if not any(re.fullmatch(it, line) for line in runs[name].lines)]


def bytes_of(run: Run) -> bytes:
    """A page as sg_sat_read_gplog dumps it."""
    found = [re.match(r"[0-9a-f]+ +((?:[0-9a-f]{2} +){16})", f"{line} ") for line in run.lines]
    page = b"".join(bytes.fromhex(it[1]) for it in found if it)
    expect(len(page) == 512, f"a page has {len(page)} bytes: {run.lines}")
    return page


def words_of(lines: Sequence[str], first: str) -> List[int]:
    """Lines of eight words in hexadecimal, behind what `first` matches."""
    found = [re.match(first + r"((?:[0-9a-f]{4} ?){8})", line) for line in lines]
    words = [int(word, 16) for it in found if it for word in it[1].split()]
    expect(len(words) == 256, f"there are {len(words)} words: {list(lines)}")
    return words


def pages_right(runs: Dict[str, Run]) -> None:
    """IDENTIFY DEVICE and the logs, by their bytes."""
    words = words_of(runs["words"].lines, r"[0-9a-f]+ +")
    for name, first, last, text in (("serial", 10, 19, SERIAL), ("firmware", 23, 26, FIRMWARE), ("model", 27, 46, MODEL)):
        found = b"".join(it.to_bytes(2, "big") for it in words[first:last + 1])
        expect(found == text.encode().ljust(2 * (last + 1 - first)), f"the {name} is {found!r}")
    counted = [sum(words[at + it] << 16 * it for it in range(count)) for at, count in ((60, 2), (100, 4))]
    expect(counted == [SECTORS, SECTORS] and words[217] == RPM, f"sectors {counted}, rotation rate {words[217]}")
    pages = {name: bytes_of(run) for name, run in runs.items() if name.startswith("log_")}
    sizes = [int.from_bytes(pages["log_0x00"][2 * it:2 * it + 2], "little") for it in range(256)]
    expect({it: size for it, size in enumerate(sizes) if size} == {0x00: 1, 0x03: 1, 0x04: 2, 0x07: 1, 0x10: 1, 0x11: 1, 0x30: 7, **dict.fromkeys(range(0x80, 0xA0), 16)}, f"log 00h is {sizes}")
    written = {"log_0x80_0": bytes(512), "log_0x80_1": DATA[:512], "log_0x80_2": DATA[512:1024], "log_0x80_3": bytes(512), "log_0x81": DATA[:512], "log_0x9f_15": DATA[:512]}
    differing = [name for name, content in written.items() if pages[name] != content]
    expect(not differing, f"the host's logs {differing} are not as it wrote them")
    unsound = [name for name in ("log_0x03", "log_0x07", "log_0x10", "log_0x11") if sum(pages[name]) % 256]
    expect(not unsound, f"the sums of {unsound} are wrong")
    expect(pages["log_0x10"][0] & 0x80 == 0x80, "log 10h names a failed command, and none has failed")
    expect(pages["log_0x30"][8:17] == bytes([7, *range(7), 0]) and pages["log_0x04"][8:11] == b"\x02\x00\x01", "the lists of pages are wrong")
    expect(pages["log_0x30_1"] == b"".join(it.to_bytes(2, "little") for it in words), "page 01h of log 30h is not what IDENTIFY DEVICE reads")
    expect(pages["log_0x30_2"][8:16] == (1 << 63 | SECTORS).to_bytes(8, "little"), "page 02h of log 30h has another capacity")
    expect(all(pages[f"log_0x30_{it}"][:8] == (1 << 63 | it << 16 | 1).to_bytes(8, "little") for it in range(2, 7)), "the header of a page of log 30h is wrong")
    expect(sum(words[108 + it] << 48 - 16 * it for it in range(4)) == NAME and pages["log_0x30_3"][56:64] == NAME.to_bytes(8, "little"), "the world wide name is another")
    zeros = (words[69] & DRAT_AND_RZAT == DRAT_AND_RZAT, int.from_bytes(pages["log_0x30_3"][8:16], "little") & LOG_DRAT_AND_RZAT == LOG_DRAT_AND_RZAT)
    expect(zeros == (True, True), f"that trimmed sectors are zeros is not in word 69 and page 03h of log 30h: {zeros}")
    same = [(8, 10, 10), (32, 23, 4), (48, 27, 20)]
    expect(all(pages["log_0x30_5"][at:at + 2 * count] == pages["log_0x30_1"][2 * word:2 * (word + count)] for at, word, count in same), "page 05h of log 30h has other texts than IDENTIFY DEVICE")


def sectors_right(runs: Dict[str, Run]) -> None:
    """A sector as hdparm reads it: one that was made bad is zeros once hdparm has written it, and so is one that was trimmed, and not those beside it."""
    zeros = ("sector_next", "sector_again", "sector_zeroed", "sector_2001", "sector_2008")
    has_sectors(runs, {"sector": DATA[:512], "sector_2000": DATA[:512], "sector_2009": DATA[9 * 512:10 * 512], **dict.fromkeys(zeros, bytes(512))})


def has_sectors(runs: Dict[str, Run], wanted: Dict[str, bytes]) -> None:
    for name, content in wanted.items():
        found = b"".join(it.to_bytes(2, "big") for it in words_of(runs[name].lines, ""))
        swapped = b"".join(found[it:it + 2][::-1] for it in range(0, 512, 2))
        expect(content in (found, swapped), f"{name} is {found.hex()}")


def trims_right(runs: Dict[str, Run]) -> str:
    """fstrim names as many bytes as Linux has discarded: at least what is free, and no more than there is. What isn't trimmed stays."""
    said = []
    for system in ("ext4", "xfs"):
        size, blocks, free = (int(it) for it in runs[f"free_{system}"].lines[0].split())
        before, after = (int(runs[f"discards_{it}_{system}"].lines[0]) for it in ("before", "after"))
        found = re.fullmatch(r"/mnt: .* \((\d+) bytes\) trimmed", runs[f"fstrim_{system}"].lines[0])
        if not found:
            raise Failed(f"fstrim on {system}: {runs[f'fstrim_{system}'].lines}")
        trimmed = int(found[1])
        expect(trimmed == 512 * (after - before) and size * free <= trimmed <= size * blocks,
               f"fstrim on {system}: {trimmed} bytes trimmed, {after - before} sectors discarded, {free} of {blocks} blocks of {size} free")
        expect(runs[f"kept_{system}"].lines[0].split()[0] == digest(DATA), f"after fstrim on {system} the file is another")
        said.append(f"{system} {trimmed} bytes trimmed")
    return ", ".join(said)


def performed(room: str, options: Sequence[str], sectors: int, says: Sequence[Tuple[str, List[str]]], more: str = "") -> Tuple[Guest, Dict[str, Run]]:
    """Runs guests/tools.sh on a disk: no tool complains, and each says what it has to."""
    guest = Guest(room, ["--image", blank(room, sectors), *options], linux(room, "tools", DATA, more=more))
    guest.end(600)
    guest.log_is_usual([r"fail \d+ with 40 at sector 1000, which is marked uncorrectable", r"the queue's journal of \d+ entries was handed out"])
    guest.results()
    runs = runs_of(guest.serial())
    absent = [name for name, _ in says if name not in runs]
    expect(not absent, f"the runs {absent} have not ended")
    found = [it for name, run in runs.items() for it in complaints(name, run)]
    expect(not found, "the tools complain: " + "; ".join(found[:12]))
    unsaid = missing(runs, says)
    expect(not unsaid, "the tools don't say: " + "; ".join(unsaid[:12]))
    expect(guest.codes().get(0x06, 0) > 0, "no DATA SET MANAGEMENT came")
    return guest, runs


def tools(room: str) -> str:
    """smartctl, hdparm, sg3_utils, fstrim, blkdiscard and lsblk on the disk: they print what ACS-3 and the options say, and none complains."""
    _, runs = performed(room, OPTIONS, SECTORS, SAYS)
    pages_right(runs)
    sectors_right(runs)
    return f"{len(runs)} runs without a complaint; {trims_right(runs)}"


def plain(room: str) -> str:
    """The same on a disk without a write cache that doesn't rotate and whose trims are advice: they say so, a write cache can't be enabled, and a trimmed sector stays."""
    guest, runs = performed(room, ["--rpm", "1", "--trim", "advice"], 131072, PLAIN, more="disk=plain")
    expect(not any("Deterministic" in line for line in runs["plain_identify"].lines), "hdparm names zeros, and trims are advice")
    has_sectors(runs, {"plain_sector": DATA[:512]})
    expect(not any(re.fullmatch(r"\*?\s*Write cache", line) for line in runs["plain_identify"].lines), "hdparm names a write cache, and the disk has none")
    expect(guest.codes().get(0xE7, 0) + guest.codes().get(0xEA, 0) == 0, "Linux flushes a write cache, and the disk has none")
    return f"{len(runs)} runs without a complaint"


# what these tools print of a disk with a fault, and Linux
FAULTS = ["Warning! SMART Attribute Data Structure error: invalid SMART checksum.", "Warning! Drive Identity Structure error: invalid checksum.",
          "SMART overall-health self-assessment test result: FAILED!",
          "Warning: device does not support Self-Test functions.", "Read SMART Data failed: scsi error aborted command", "SMART Status command failed", "General Purpose Log Directory not supported",
          "Read GP Log Directory failed", "SMART Extended Comprehensive Error Log (GP Log 0x03) not supported",
          "SMART Extended Self-test Log (GP Log 0x07) not supported", "Device Statistics (GP/SMART Log 0x04) not supported",
          "SATA Phy Event Counters (GP Log 0x11) not supported", "# 1  Short offline       Completed: read failure       90%         0         1000",
          "SMART support is: Unavailable - device lacks SMART capability.",
          "APM feature is:   Unavailable", "Write cache is:   Unavailable", "Rd look-ahead is: Unavailable", "Error SMART Values Read failed: scsi error aborted command",
          "Integrity word: checksum incorrect", "HDIO_DRIVE_CMD(identify) failed: Input/output error",
          "SG_IO: bad/missing sense data, sb[]:  70 00 0b 00 00 00 00 0a 04 41 00 00", "APM_level\t= not supported",
          "fstrim: /mnt: the discard operation is not supported", "blkdiscard: /dev/sda: BLKDISCARD ioctl failed: Remote I/O error",
          "Unexpected: ATA PASS-THROUGH, aborted command", "error reading the log"]
KERNEL_FAULTS = ["ata1.00: exception Emask 0x1 SAct 0x0 SErr 0x0 action 0x0", "ata1.00: error: { ABRT }", "ata1.00: Read log 0x30 page 0x08 failed, Emask 0x1",
                 "I/O error, dev sda, sector 0 op 0x3:(DISCARD) flags 0x800 phys_seg 1 prio class 2"]


def faults(_: str) -> str:
    """Each complaint of a disk with a fault is one, in the lines of a tool and in those of Linux, and so is a status."""
    missed = [it for it in FAULTS if not complaints("all", Run([it], [], 0))] + [it for it in KERNEL_FAULTS if not complaints("all", Run([], [it], 0))]
    expect(not missed, f"these are taken for good: {missed}")
    expect(bool(complaints("all", Run([], [], 4))) and bool(complaints("skips", Run([], [], 0))), "a status is taken for good")
    return f"{len(FAULTS) + len(KERNEL_FAULTS)} complaints"


CHECKS = [Check(tools, title="The tools of a real system"), Check(plain, title="The tools, a disk without a cache", is_long=True), Check(faults, title="Complaints of the tools")]
