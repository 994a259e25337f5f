#!/usr/bin/env python3
"""Has the program list the tokens of ROMs of many kinds, and compares what it prints with what is worked out here from document 01.

    python3 tests/tokens.py                  every ROM, with the program that was proved and built
    python3 tests/tokens.py --list FILE      prints the list of the ROM in FILE, as worked out here
"""
import pathlib
import random
import subprocess
import sys
import tempfile

from roms import FOUR, NARROW, TWO, WIDE, apart, fcode_of, spread_of, with_header

HERE = pathlib.Path(__file__).resolve().parent.parent

# document 01's words under "Tokens, by number (hex)"
WORDS = """
00 end0 FF end1 10 b(lit) 12 b(") 13 bbranch 14 b?branch B1 b(<mark) B2 b(>resolve) CC offset16
1E + 1F - 20 * 23 and 24 or 25 xor 26 invert 27 lshift 28 rshift 29 >>a 2B u/mod 2C negate 2D abs 2E min 2F max 57 2/ 58 u2/ 59 2*
34 0= 35 0<> 36 0< 37 0<= 38 0> 39 0>= 3A < 3B > 3C = 3D <> 3E u> 3F u<= 40 u< 41 u>= 42 >= 43 <= 44 between 45 within
30 >r 31 r> 32 r@ 33 exit 46 drop 47 dup 48 over 49 swap 4A rot 4B -rot 4C tuck 4D nip 4E pick 4F roll 50 ?dup 51 depth
52 2drop 53 2dup 54 2over 55 2swap 56 2rot 7B noop A4 -1 A5 0 A6 1 A7 2 A8 3 6D @ 71 c@ 72 ! 75 c!
B5 new-token B6 named-token CA external-token B7 b(:) B8 b(value) B9 b(variable) BA b(constant) C3 b(to) C2 b(;)
111 encode-int 114 encode-string 112 encode+ 110 property 201 device-name 119 model 11A device-type 11F new-device 127 finish-device
""".split()
NAMES = {int(number, 16): name for number, name in zip(WORDS[::2], WORDS[1::2])}


class Past(Exception):
    """The program ends within a token."""


MAY_BE_OPERAND = " (no token of the list: the next lines may be its operand)"


def letters(text):
    """The remark on a string."""
    return ' "%s"' % text.decode("ascii") if all(0x20 <= byte <= 0x7E for byte in text) else ""


def leads(at, offset, length):
    """The remark on a branch whose offset starts at a place."""
    to = at + int.from_bytes(offset, "big", signed=True)
    return " to %04X" % to if 8 <= to < length else " to no place of the program"


def lines(rom):
    """The list of a ROM with a good header. Of a spread one it is that of its FCode bytes."""
    fcode = fcode_of(rom)
    length = int.from_bytes(fcode[4:8], "big")
    program, place, wide = fcode[:length], 8, fcode[0] != NARROW

    def take(at, count):
        if at + count > length:
            raise Past
        return program[at : at + count]

    def number(at):
        return take(at, 2 if 1 <= take(at, 1)[0] <= 15 else 1)

    def string(at):
        return [take(at, 1), take(at + 1, take(at, 1)[0])]

    def head(at):
        defined = number(at)
        return [defined, take(at + len(defined), 1)]

    while place < length:
        shown, remark = "%04X" % place, ""
        try:
            first = number(place)
            token, at = int.from_bytes(first, "big"), place + len(first)
            listed = token in NAMES or 0x800 <= token <= 0xFFF
            if token == 0x10:
                parts = [take(at, 4)]
            elif token == 0x12:
                parts = string(at)
                remark = letters(parts[1])
            elif token in (0x13, 0x14):
                parts = [take(at, 2 if wide else 1)]
                remark = leads(at, parts[0], length)
            elif token == 0xC3:
                parts = [number(at)]
            elif token in (0xB5, 0xB6, 0xCA):
                named = [] if token == 0xB5 else string(at)
                remark = letters(named[1]) if named else ""
                parts = named + head(at + len(b"".join(named)))
                listed = 0x800 <= int.from_bytes(parts[-2], "big") <= 0xFFF and 0xB7 <= parts[-1][0] <= 0xBA
            else:
                parts = []
        except Past:
            yield shown + " raw " + program[place:].hex().upper()
            return
        if not listed:
            place += len(first)
            yield shown + " raw " + first.hex().upper() + (MAY_BE_OPERAND if place < length else "")
            continue
        words = [shown, first.hex().upper(), NAMES.get(token, "program number")] + [part.hex().upper() for part in parts if part]
        yield " ".join(words) + remark
        place = at + len(b"".join(parts))
        wide = wide or token == 0xCC


def roms():
    """Every token of the list; every number of one byte, and many of two; tokens that are cut off; branches before and behind offset16;
    the longest ROMs; ROMs of anything; spread ROMs, with gaps that are tokens, and with none or some behind the last byte."""
    operands = {0x10: "00C0FFEE", 0x12: "057363616C65", 0x13: "7F80", 0x14: "8001", 0xC3: "0801"}
    operands |= {0xB5: "0800B7", 0xB6: "04746172650FFFB8", 0xCA: "000800BA"}
    every = b"".join((bytes([n]) if n < 256 else n.to_bytes(2, "big")) + bytes.fromhex(operands.get(n, "")) for n in NAMES)
    gaps = bytes.fromhex("1200CC13FFB5")
    for start in (NARROW, WIDE, TWO, FOUR):
        yield apart(with_header(every + bytes.fromhex("08000FFF0801"), start), gaps)
        yield apart(with_header(bytes(range(16, 256)) * 3, start), gaps)
        yield apart(with_header(b"".join(n.to_bytes(2, "big") for n in range(0x100, 0x210)) + bytes.fromhex("07FF0FFF"), start), gaps)
        yield apart(with_header(bytes.fromhex("1305130513CC1305130513051305"), start), gaps) + gaps
    # branches to every place from 128 bytes before the offset to 127 behind it, and to the ends of what 16 bits reach
    yield with_header(b"".join(bytes([0x13 + n % 2, n]) for n in range(256)))
    for target in (7, 8, 9, 31, 32, 33, 0x8008, 0x8009):
        yield with_header(b"\x13" + (target - 9 & 0xFFFF).to_bytes(2, "big") + b"\x7B" * 21, WIDE)
    # strings of letters, of other bytes, and of both; a string that ends the program; an empty one
    for text in (b"scale", b" ~", b"\x1F", b"\x7F", b"a\x00", b'say "no"', b"\\", b"\xE9", b"", b"m" * 255):
        yield with_header(b"\x12" + bytes([len(text)]) + text)
        yield with_header(b"\xB6" + bytes([len(text)]) + text + b"\x08\x01\xB7\x00")
    # heads that are badly formed, and some that are well formed
    for head in ("B507FFB7", "B50800B6", "B50FFFBB", "B5B7B7", "B60100B7B7", "B601610800B9", "CA0201020FFFB7", "B50801B7"):
        yield with_header(bytes.fromhex(head + "00"))
    # a token of each form, cut off at each of its bytes
    for token in ("1000C0FFEE", "1203616263", "0110", "130102", "C30800", "B50800B7", "B60274650800B7", "12FF00", "01", "0F"):
        for kept in range(1, len(token) // 2 + 1):
            yield with_header(b"\x47" + bytes.fromhex(token)[:kept], WIDE)
        yield apart(with_header(b"\x47" + bytes.fromhex(token)[:-1], FOUR) + bytes.fromhex(token)[-1:], gaps)
    yield with_header(b"\x12\xFF" + b"\x00" * 255) + b"\x47\x47"
    yield with_header(b"\xB6\xFF" + b"\xAB" * 255 + b"\x0F\xFF\xBA\x00")
    # the longest ROMs: full of one-byte tokens with the longest name, and of bytes that are none; strings, and branches as far as they lead
    yield with_header(b"\xB2" * 65528)
    yield with_header(b"\xFE" * 65528)
    yield with_header((b"\x12\xFF" + b"m" * 255) * 254 + b"\x7B" * 250)
    yield with_header(b"\x13\x7F\xFF" * 10922 + b"\x13\x80\x00" * 10920 + b"\x7B\x00", WIDE)
    for start in (TWO, FOUR):
        most = 65536 // spread_of([start])
        yield apart(with_header(b"\xB2" * (most - 8), start), gaps)
        yield apart(with_header(b"\x13\x7F\xFF" * ((most - 8) // 3), start), gaps) + b"\x7B"
        yield apart(with_header(b"\x00", start), gaps).ljust(65536, b"\x7B")
    some = random.Random(1275)
    for k in range(16):
        size = some.choice((1, 2, 40, 300, 4000))
        start = some.choice((NARROW, WIDE)) if k < 12 else some.choice((TWO, FOUR))
        yield apart(with_header(bytes(some.randrange(256) if k % 2 else some.choice(every) for _ in range(size)), start), gaps)


def loader():
    """The words that run the program, with the C library of the kit that built it."""
    kit = pathlib.Path(subprocess.run(["rt", "doc"], capture_output=True, text=True, check=True).stdout.strip()).parent
    tools = kit / "toolchain" / "lib"
    return [str(tools / "ld-linux-x86-64.so.2"), "--library-path", str(tools), str(HERE / "crates" / "lamp" / "out" / "lamp")]


def main():
    if sys.argv[1:2] == ["--list"]:
        print("\n".join(lines(pathlib.Path(sys.argv[2]).read_bytes())))
        return 0
    words, right, wrong = loader(), 0, 0
    with tempfile.TemporaryDirectory() as room:
        path = pathlib.Path(room) / "some.rom"
        for k, one in enumerate(roms()):
            path.write_bytes(one)
            ran = subprocess.run(words + ["tokens", str(path)], capture_output=True)
            said = ran.stdout.decode("latin-1")
            must = "".join(line + "\n" for line in lines(one))
            if said == must and not ran.stderr and ran.returncode == 0:
                right += 1
            else:
                wrong += 1
                near = next(((a, b) for a, b in zip(said.split("\n"), must.split("\n")) if a != b), (said[-80:], must[-80:]))
                print("ROM %d, %s: it says %r and must say %r" % (k, one[:24].hex().upper(), *near))
    print("tests/tokens.py: %d ROMs as expected, %d not" % (right, wrong))
    return 1 if wrong or not right else 0


sys.exit(main())
