"""How values of a difference are shown: words with their bits' names, FISes and pages field by field, long blocks by the rows around a byte."""
from typing import Dict, List, Tuple

from . import layout
from .differences import Difference

ROW = 16  # bytes in a row of a block
BARE = ("CAP", "PI", "VS", "PxCLB", "PxFB", "PxSIG", "PxSSTS")  # no bit of these is named beside its word
TEXTS = {**dict.fromkeys(range(10, 20), "serial number"), **dict.fromkeys(range(23, 27), "firmware revision"), **dict.fromkeys(range(27, 47), "model number")}
WORDS: Dict[int, str] = {  # of IDENTIFY DEVICE, by ACS-3
    **TEXTS, 0: "general configuration", 47: "sectors per READ MULTIPLE", 49: "capabilities", 53: "which words are valid", 59: "multiple sector setting",
    60: "sectors, 28 bits", 61: "sectors, 28 bits", 63: "multiword DMA modes", 64: "PIO modes", 75: "queue depth, less one", 76: "Serial ATA capabilities",
    80: "major version", 82: "command sets", 83: "command sets", 84: "command sets", 85: "command sets enabled", 86: "command sets enabled",
    87: "command sets enabled", 88: "Ultra DMA modes", 93: "hardware reset result", **dict.fromkeys(range(100, 104), "sectors, 48 bits"), 106: "sector size",
}


def word_of(place: str) -> int:
    """The number of a word of the identify page, or -1."""
    return int(place.split()[-1]) if place.startswith("identify word ") else -1


def word_text(number: int, data: bytes) -> str:
    """A word as four digits, and as the two characters that it holds, if it is of a text."""
    text = f"  \"{''.join(chr(it) if 32 <= it < 127 else '.' for it in data)}\"" if number in TEXTS else ""
    return f"{data.hex()}{text}"


def value(place: str, data: bytes) -> str:
    """A value in one line."""
    if place in layout.REGISTERS:
        names = layout.bits_of(place, int.from_bytes(data, "big"))
        return data.hex() + ("  " + ", ".join(names) if names and place not in BARE else "")
    if place.endswith("FIS"):
        return data.hex(" ") if any(data) else "none"
    if place == "PRDBC":
        return f"{data.hex()}  {int.from_bytes(data, 'big'):,} bytes"
    return word_text(word_of(place), data) if word_of(place) >= 0 else data.hex(" ")


def rows(it: Difference) -> List[str]:
    """The bytes around the first that differs, and around the last if that is elsewhere."""
    places = [at for at, byte in enumerate(it.mask) if byte]
    lines, shown = [], set()
    for name, at in (("first", places[0]), ("last", places[-1])):
        row = at // ROW * ROW
        if row in shown:
            continue
        shown.add(row)
        lines.append(f"    {name} at {at:x}h")
        for who, data in (("expected", it.expected), ("got", it.got)):
            lines.append(f"    {who:<10}{row:06x}  {data[row:row + ROW].hex(' ')}")
        lines.append(f"    {'':<18}{' '.join('^^' if byte else '  ' for byte in it.mask[row:row + ROW])}".rstrip())
    return lines


def apart(place: str, mask: bytes) -> Dict[str, List[int]]:
    """The fields of a FIS or a page in which some bit is 1, and the bytes of each."""
    named = layout.field_names(place)
    found: Dict[str, List[int]] = {}
    for at, byte in enumerate(mask):
        if byte:
            name = named.get(at, f"byte {at:x}h")
            found[name] = [other for other, its in named.items() if its == name] or [at]
    return found


def fields(it: Difference) -> List[str]:
    """Of a FIS or a page: each field that differs, with both values."""
    found, lines = apart(it.place, it.mask), []
    for name, places in list(found.items())[:8]:
        before, after = (bytes(data[at] if at < len(data) else 0 for at in reversed(places)).hex() for data in (it.expected, it.got))
        lines.append(f"    {name}: expected {before}h, got {after}h{meaning(name, before, after)}")
    return lines + [f"    and {len(found) - 8} more fields"] * (len(found) > 8)


def meaning(name: str, before: str, after: str) -> str:
    """The bits of a status that differ, and which tags SActive has too many or too few."""
    if name == "status":
        bits = layout.bits_of("PxTFD", int(before, 16) ^ int(after, 16))
    elif name == "SActive":
        bits = layout.bits_of("PxSACT", int(before, 16) ^ int(after, 16))
    else:
        return ""
    return f" ({', '.join(bits)})"


def body(it: Difference) -> List[str]:
    """Expected, got, and what of it differs."""
    if layout.field_names(it.place) and not it.place.startswith("log"):
        return [f"    expected  {value(it.place, it.expected)}", f"    got       {value(it.place, it.got)}", *fields(it)]
    if len(it.mask) > 8:
        many = sum(byte != 0 for byte in it.mask)
        decoded = fields(it) if it.place.startswith("log") else []
        return [f"    {many:,} of {len(it.mask):,} bytes differ", *rows(it), *decoded]
    names = ", ".join(it.names) if it.place in layout.REGISTERS else WORDS.get(word_of(it.place), "")
    lines = [f"    expected  {value(it.place, it.expected)}", f"    got       {value(it.place, it.got)}"]
    return lines + ([f"    differs   {names}"] if names else [])


def excused(it: Difference) -> List[str]:
    """What the list explains of this difference, and what is left is new."""
    lines = []
    for entry, bits in it.excused:
        names = layout.fields_of(it.place, bits) if it.place in layout.REGISTERS else [
            f"{name} {bits[places[0]]:02x}h" if len(places) == 1 else name for name, places in apart(it.place, bits).items()]
        lines.append(f"    excused   {', '.join(names[:8])} by {entry}")
    return lines


def spans(numbers: List[int]) -> str:
    """1 to 4, 7."""
    found: List[Tuple[int, int]] = []
    for it in sorted(numbers):
        if found and it == found[-1][1] + 1:
            found[-1] = (found[-1][0], it)
        else:
            found.append((it, it))
    text = [str(first) if first == last else f"{first} to {last}" for first, last in found]
    return ", ".join(text[:8]) + (f" and {len(text) - 8} more" if len(text) > 8 else "")
