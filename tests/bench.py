#!/usr/bin/env python3
"""What crates/bench must print of the ROMs in crates/bench/stdin, worked out from document 01 and not from the Rattle code.

    python3 tests/bench.py           prints the lines
    python3 tests/bench.py --check   compares them with crates/bench/stdout, and exits 1 where they differ
    python3 tests/bench.py --roms    prints the ROMs behind T that crates/bench/stdin ends with

The headers before those are of spread ROMs, from tests/spread.py.
"""
import pathlib
import random
import sys

from roms import fcode_of, of_hex, with_header

BENCH = pathlib.Path(__file__).parent.parent / "crates" / "bench"

# What each token does to the data stack, as the glossary's stack diagrams have it: cells before, cells after. Of pick, roll and ?dup it is
# the sure part: the count or the flag, and the one cell that pick and ?dup always leave.
DATA = {}
for diagram, numbers in {
    "2-1": "1E 1F 20 23 24 25 27 28 29 2E 2F 3A 3B 3C 3D 3E 3F 40 41 42 43 4D",
    "1-1": "26 2C 2D 34 35 36 37 38 39 57 58 59 4E 50 6D 71",
    "2-2": "2B 49 114",
    "3-1": "44 45",
    "1-0": "14 30 46 4F C3 B8 BA",
    "0-1": "10 31 32 51 A4 A5 A6 A7 A8",
    "0-2": "12",
    "1-2": "47 111",
    "2-3": "48 4C",
    "3-3": "4A 4B",
    "2-0": "52 72 75 119 11A 201",
    "2-4": "53",
    "4-6": "54",
    "4-4": "55",
    "6-6": "56",
    "4-2": "112",
    "4-0": "110",
    "0-0": "00 FF 13 33 7B B1 B2 B5 B6 B7 B9 C2 CA CC 11F 127",
}.items():
    for number in numbers.split():
        DATA[int(number, 16)] = tuple(map(int, diagram.split("-")))
RETURN = {0x30: (0, 1), 0x31: (1, 0), 0x32: (1, 1)}
DEFINING = (0xB5, 0xB6, 0xCA)
KINDS = range(0xB7, 0xBB)
PROGRAM = range(0x800, 0x1000)
NOT_INSIDE = DEFINING + (0x00, 0xFF, 0xCC, 0x11F, 0x127)
NOT_OUTSIDE = (0x33, 0xC2)
DEFINED = {0x800: 0xB7, 0x801: 0xB8, 0x802: 0xB9, 0x803: 0xBA}


class Cut(Exception):
    """The program ends within a token."""


class Reader:
    """Takes bytes off a program, none from past its length."""

    def __init__(self, rom, length, place):
        self.program, self.place = rom[:length], place

    def byte(self):
        if self.place >= len(self.program):
            raise Cut
        self.place += 1
        return self.program[self.place - 1]

    def many(self, count):
        return bytes(self.byte() for _ in range(count))

    def number(self):
        first = self.byte()
        return first * 256 + self.byte() if 0x01 <= first <= 0x0F else first


def header(rom):
    if not 8 <= len(rom) <= 65536:
        return 1
    if rom[0] not in (0xFD, 0xF1, 0xF2, 0xF3):
        return 2
    # request (vii) of document 02: behind F2 and F3 every second and every fourth byte is FCode
    fcode = fcode_of(rom)
    if len(fcode) < 8:
        return 1
    if fcode[1] != 8:
        return 3
    length = int.from_bytes(fcode[4:8], "big")
    if length < 9 or length > len(fcode):
        return 4
    if sum(fcode[8:length]) % 65536 != int.from_bytes(fcode[2:4], "big"):
        return 5
    return 0


def operand(reader, number, wide, length):
    """The words that describe what stands behind a number; None where a definition is badly formed."""
    if number == 0x10:
        return f"literal {int.from_bytes(reader.many(4), 'big'):x}"
    if number == 0x12:
        count = reader.byte()
        start = reader.place
        reader.many(count)
        return f"text {start:x} {count:x}"
    if number in (0x13, 0x14):
        base = reader.place
        raw = reader.many(2 if wide else 1)
        to = base + int.from_bytes(raw, "big", signed=True)
        aim = f"{to:x}" if 8 <= to <= length - 1 else "outside"
        return f"branch {int.from_bytes(raw, 'big'):x} {aim}"
    if number == 0xC3:
        return f"number {reader.number():x}"
    if number in DEFINING:
        if number != 0xB5:
            reader.many(reader.byte())
        new, kind = reader.number(), reader.byte()
        return f"definition {new:x} {kind:x}" if new in PROGRAM and kind in KINDS else None
    return "nothing"


def out_of_place(number, within):
    return number in KINDS or number in (NOT_INSIDE if within else NOT_OUTSIDE)


def token(rom, length, wide, place):
    """The number, the operand's words and the next place; the words are None where refusal 11 is due."""
    reader = Reader(rom, length, place)
    number = reader.number()
    if number in PROGRAM:
        return number, "nothing", reader.place
    if number not in DATA:
        return number, None, reader.place
    words = operand(reader, number, wide, length)
    return number, words, reader.place


def shown(rom, length, wide, place):
    try:
        number, words, following = token(rom, length, wide, place)
    except Cut:
        return "cut"
    if words is None:
        return "unlisted"
    cells = DATA.get(number, (0, 0)) + RETURN.get(number, (0, 0))
    places = ["yes" if out_of_place(number, within) else "no" for within in (True, False)]
    return " ".join([f"{number:x}", f"{following:x}", *map(str, cells), *places, words])


def body(rom, length, wide, place):
    while True:
        try:
            number, words, following = token(rom, length, wide, place)
        except Cut:
            return f"stops {place:x} a"
        if out_of_place(number, True):
            return f"stops {place:x} 12"
        if words is None:
            return f"stops {place:x} b"
        if number == 0xC2:
            return f"ends {place:x}"
        if number in PROGRAM and number not in DEFINED:
            return f"stops {place:x} c"
        if number == 0xC3 and DEFINED.get(int(words.split()[1], 16)) != 0xB8:
            return f"stops {place:x} c"
        place = following


def lines(text):
    for line in text.splitlines():
        letter, digits = line.split(" ")
        rom = of_hex(digits)
        verdict = header(rom)
        yield f"header {verdict:x}"
        if letter == "T" and verdict == 0:
            length = int.from_bytes(rom[4:8], "big")
            for place in range(8, length):
                for wide in (False, True):
                    said = "yes" if wide else "no"
                    yield f" {place:x} {said} {shown(rom, length, wide, place)} {body(rom, length, wide, place)}"


def written(number):
    return number.to_bytes(2 if number > 0xFF else 1, "big")


def every_token():
    """Each number of the list once, with an operand where it has one, and each way to form a definition badly."""
    behind = {0x10: "89ABCDEF", 0x12: "03C2B712", 0x13: "FF", 0x14: "0480", 0xC3: "0801"}
    behind.update({0xB5: "0800B7", 0xB6: "02C2000804B9", 0xCA: "000FFFBA"})
    parts = [written(number) + bytes.fromhex(behind.get(number, "")) for number in sorted(DATA)]
    parts += [written(number) for number in (0x800, 0x803, 0x804, 0xFFF)]
    parts += [bytes.fromhex(odd) for odd in ("B50800BB", "B507FFB7", "B546B7", "C350", "C30802", "11", "15", "BE", "0113", "0301")]
    return b"".join(parts)


def any_bytes(seed, count):
    """Bytes drawn from the list's own, so that many tokens are whole, and ends of programs that cut one off."""
    draw = random.Random(seed)
    numbers = sorted(DATA) + list(DEFINED) + [0x10, 0x12, 0x13, 0x14, 0xC2, 0xC2, 0xC3, 0xB5, 0xB6, 0xCA]
    program = b""
    while len(program) < count:
        program += written(draw.choice(numbers)) if draw.random() < 0.7 else bytes([draw.randrange(256)])
    return program[:count]


def roms():
    for start in (0xFD, 0xF1):
        yield with_header(every_token(), start)
    for program in ("13FF00", "A4A629"):
        yield with_header(bytes.fromhex(program))
    for seed, count in ((1275, 120), (1994, 90), (7, 60)):
        yield with_header(any_bytes(seed, count))


def main():
    if "--roms" in sys.argv:
        for rom in roms():
            print("T " + rom.hex().upper())
        return 0
    expected = list(lines((BENCH / "stdin").read_text()))
    if "--check" not in sys.argv:
        print("\n".join(expected))
        return 0
    stored = (BENCH / "stdout").read_text().splitlines()
    for at, (left, right) in enumerate(zip(expected, stored), 1):
        if left != right:
            print(f"line {at}: expected '{left}', stored '{right}'")
            return 1
    if len(expected) != len(stored):
        print(f"{len(expected)} lines expected, {len(stored)} stored")
        return 1
    print(f"crates/bench/stdout: {len(stored)} lines as expected")
    return 0


if __name__ == "__main__":
    sys.exit(main())
