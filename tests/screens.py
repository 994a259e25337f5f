#!/usr/bin/env python3
"""What crates/screens is run on and must print: the worked cases, long ROMs (tests/long.py), spread ROMs (tests/spread.py), the bench ROMs
of documents 01 and 02, the ROMs by which docs/DECISIONS.md says how document 01 is read, wrong buffers and headers, and ROMs for the rules
that these do not touch. The worked cases were worked out apart from the Rattle code, the rest by hand here.

    python3 tests/screens.py           writes crates/screens/stdin and crates/screens/stdout
    python3 tests/screens.py --check   compares them with what it would write, and exits 1 where they differ

A line of input is 'S HEX', or 'W SIZE HEX' with another mark buffer. It gives two lines: 'screen N' (0 passes), and behind it 'marks P:V
...', or, where N is neither 0 nor 31, whether the mark buffer was written.

A ROM that passes is written here as its tokens, each with the data height at which it is met, '-' where it is not reached: 'A6:0 46:1
00:0'. A mark is this height and one. A ROM that is refused is written as bytes alone. Every ROM has its ground beside it.
"""
import pathlib
import sys

import long
import roms
import spread
import written
from roms import NARROW, WIDE, with_header

SCREENS = pathlib.Path(__file__).parent.parent / "crates" / "screens"


def passed(heights):
    """The lines of a ROM that passes, by the height at each reached place."""
    return ["screen 0", roms.marked({place: height + 1 for place, height in heights.items()})]


def refused(number):
    return [f"screen {number}", "marks" if number == 31 else "unwritten"]


def passing(text, start=NARROW):
    """A ROM by its tokens with their heights."""
    program, heights = roms.words(text)
    return f"S {with_header(program, start).hex().upper()}", passed(heights)


def failing(text, start=NARROW):
    return f"S {with_header(bytes.fromhex(text), start).hex().upper()}", refused(31)


def bare(text):
    """The bytes alone of a ROM that is written with heights."""
    return "".join(word.split(":")[0] for word in text.split())


def as_screened(cases):
    """Of each case its line of input, and the lines that it must give."""
    for (rom, *_), told in cases:
        lines = [line for line in told if roms.kind(line) == "screen"]
        lines += [roms.marked(roms.marks_of(line)) for line in told if roms.kind(line) == "marks"]
        yield f"S {rom.replace('-', '')}", lines if len(lines) == 2 else lines + ["unwritten"]


def worked_cases():
    return as_screened(roms.worked_cases())


def long_cases():
    return as_screened(long.cases())


def spread_cases():
    return as_screened(spread.cases())


def pushes(count):
    return " ".join(f"A6:{height}" for height in range(count))


SCALE = "FD0805170000001E12057363616C650201A8011112056C616E6573011000"


def bench_roms():
    """The bench ROMs of documents 01 and 02. Those behind which they say nothing of the screen have their ground here."""
    yield passing("00:0")
    yield failing("4600")
    yield passing("A6:0 A5:1 2B:2 00:2")
    yield passing("13FF:0 00:-")
    yield failing("1300")
    yield failing("A65000")
    yield passing("A4:0 A6:1 29:2 00:1")
    yield failing("A4A629")  # the same with no finish: the token behind the last one would give 10
    yield passing("1000000005:0 1000000005:1 1000000005:2 45:3 00:1")
    yield passing("1000000005:0 1000000003:1 10FFFFFFFD:2 45:3 00:1")  # document 02's
    yield passing(f"{pushes(64)} 00:64")
    yield failing("A6" * 65 + "00")  # height 65
    yield "S FD0800000000000800", refused(4)
    yield f"S {SCALE}", passing("12057363616C65:0 0201:2 A8:0 0111:1 12056C616E6573:2 0110:4 00:0")[1]
    yield f"S {SCALE.replace('0517', '0000')}", refused(5)


def readings():
    """The ROMs by which it is said how document 01 is read, in that order."""
    # the evaluator's: what the screen says of the same ROMs
    yield "S FD0800480000000D011F012700", passing("011F:0 0127:0 00:0")[1]  # a node without a name is no matter for the screen
    yield "S FD0800A600000009A6", refused(31)  # falls off the end: 10
    yield "S FD0800150000000915", refused(31)  # 15 is not in the list: 11
    yield failing("01")  # a prefix alone: 10
    yield failing("B50800")  # no kind byte: 10
    yield failing("B546")  # none either: 10
    yield "S FD08033A00000012B50800B7B5080146C200", refused(31)  # B5 in a body: 18
    yield failing("B800")  # a kind without its head: 18
    yield failing("BB00")  # BB is not in the list: 11
    yield "S FD0801130000000BC35000", refused(31)  # b(to) of a number that is none: 12
    yield "S FD08039000000011B50800B9B50800B7A6", refused(31)  # 800 a second time: 13
    yield "S FD0800F40000000BA54F00", refused(31)  # a reachable roll
    yield "S FD08034600000013A630B50800B732C2080000", refused(31)  # r@ at its frame's base
    yield "S FD0801CF00000010A5A5120161011000", passing("A5:0 A5:1 120161:2 0110:4 00:0")[1]  # addresses (22) are no matter for the screen
    # the screen's
    yield "S FD0802CB00000012B50800B74746C2080000", refused(31)  # a need of 1 met at height 0
    yield passing(f"{nested_bodies(16)} 080F:0 00:0")  # 16 frames, called or by itself
    yield failing(bare(f"{nested_bodies(17)} 00:0"))  # 17 frames where the last body is entered by itself
    yield "S FD0802FC00000011B50800B733147FC200", refused(31)  # dead code of a body that gives 19
    yield "S FD08027E00000011B50800B7331302C200", passing("B50800B7:0 33:0 1302:- C2:- 00:0")[1]  # a dead branch may leave the body
    yield "S FD0802B700000010B50800B7334EC200", passing("B50800B7:0 33:0 4E:- C2:- 00:0")[1]  # a dead pick
    yield "S FD08024A00000010B50800B71301C200", passing("B50800B7:0 1301:0 C2:0 00:0")[1]  # C2 is a token start of its body
    yield failing("B50800B713FFC200")  # a body with no reachable end, though nothing calls it
    yield passing("1305:0 B546FFFF:- 00:0")  # a defining token that is not reached has no body
    yield failing("B50800B7330801C200")  # a number in a body's dead code that is not defined
    yield passing("B50801B9:0 B50800B7:0 33:0 0801:- C2:- 00:0")  # the same, defined
    yield "S F10801880000000EA5140003CC00", refused(31)  # CC in a span
    yield "S FD0800200000000B011F00", refused(31)  # a child open at the finish
    yield passing("A5:0 30:1 00:0")  # return cells at the finish
    yield passing("011F:0 13FF:0 00:-")  # a child open in an endless loop


def nested_bodies(count):
    """Bodies that each call the one before: the last has as many frames as there are bodies."""
    calls = ["", *(f"{0x800 + k:04X}:0" for k in range(count - 1))]
    return " ".join(f"B5{0x800 + k:04X}B7:0 {call} C2:0" for k, call in enumerate(calls))


def sizes():
    """A mark buffer of another size than 65,536 bytes is 6 before all else."""
    for size in (0, 16384, 65535, 65537):
        yield f"W {size} {SCALE}", refused(6)
    yield "W 65535 FD0800460000000A4600", refused(6)  # 31 with a right buffer
    yield "W 65537 ", refused(6)  # 1 with a right buffer
    yield "W 65536 FD0800000000000900", passed({8: 0})


def headers():
    yield "S ", refused(1)
    yield "S FD080000000000", refused(1)  # 7 bytes
    yield "S F00900000000000800", refused(2)  # 3 and 4 come later
    yield "S FD0900000000000800", refused(3)  # 4 comes later
    yield "S FD0800010000000A00", refused(4)  # length 10 of 9 bytes; 5 comes later
    yield "S FD0800010000000900", refused(5)
    yield "S FD0800000000000900FFFF", passed({8: 0})  # bytes behind the length are ignored


DROP = "B50800B7:0 46:1 C2:0"  # its need is 1
RISE = "B50800B7:0 A5:0 46:1 C2:0"  # its peak is 1 above entry


def to_return(count, height=0):
    """Cells pushed and put on the return stack."""
    return f"A5:{height} 30:{height + 1} " * count


def from_return(count, height=0):
    return f"31:{height} 46:{height + 1} " * count


def heights():
    """Rule 1, and the data heights of rules 2 and 3."""
    yield passing(f"{DROP} A5:0 0800:1 00:0")  # a body's need met by its caller
    twice = f"{DROP} B50801B7:0 0800:2 0800:1 C2:0"
    yield passing(f"{twice} A6:0 A6:1 0801:2 00:0")  # a need of 2 by two nested calls
    yield failing(bare(f"{twice} A6:0 0801:1 00:0"))  # the same met at height 1
    rise = f"{RISE} B50801B7:0 A5:0 0800:1 46:1 C2:0"
    yield passing(f"{rise} {pushes(62)} 0801:62 00:62")  # a peak of 64 in the nested call
    yield failing(bare(f"{rise} {pushes(63)} 0801:63 00:63"))  # a peak of 65 there
    drops = " ".join(f"46:{64 - k}" for k in range(64))
    yield passing(f"B50800B7:0 {drops} C2:0 00:0")  # entered by itself at a need of 64
    yield failing("B50800B7" + "46" * 65 + "C200")  # at a need of 65
    drops = " ".join(f"46:{60 - k}" for k in range(60))
    yield passing(f"B50800B7:0 {drops} {pushes(64)} C2:64 00:0")  # entered at a need of 60, a peak of 64
    yield failing("B50800B7" + "46" * 60 + "A6" * 65 + "C200")  # a peak of 65
    yield passing("B50800B7:0 A5:0 C2:1 0800:0 0800:1 52:2 00:0")  # a body that leaves a cell, called at two heights
    yield passing("A5:0 1402:1 7B:0 00:0")  # two ways meet at one height
    yield failing("A51402A500")  # they meet at heights 0 and 1
    yield failing("A513FE00")  # a loop that leaves a cell each turn
    yield failing("A51403A53000")  # one data height, return heights 0 and 1
    yield failing("3200")  # r@ with nothing there
    yield failing("A6504600")  # ?dup is shut out wherever it is reached
    yield passing("00:0 50:- 4E:-")  # and pick and ?dup behind the finish are not reached
    yield passing("A5:0 B50800B8:1 A6:0 C30800:1 0800:0 00:1")  # a value takes its first cell, b(to) one, its number gives one
    yield passing("B50800B9:0 0800:0 6D:1 46:1 00:0")  # a variable's number gives one
    yield passing("A8:0 B60161" "0800BA:1 0800:0 00:1")  # a constant by a named token
    yield passing("CA0161" "0800B9:0 00:0")  # and an external one


def bodies():
    """Rule 2."""
    yield passing("B50800B7:0 A5:0 1402:1 33:0 7B:0 C2:0 00:0")  # exit and C2 at one height
    yield failing("B50800B7A5140233A5C200")  # exit at 0, C2 at 1
    yield passing("B50800B7:0 A5:0 30:1 31:0 46:1 C2:0 00:0")  # the return stack back at its base
    yield failing("B50800B7A530C200")  # a cell on the return stack at C2
    yield failing("B50800B7A53033C200")  # and at exit
    yield failing("B50800B731C200")  # r> at the base
    yield passing("B50800B7:0 C2:0 A5:0 30:1 0800:0 31:0 46:1 00:0")  # the caller's return cell stays below the base
    yield failing("B50800B71302C200")  # a branch to behind the body
    yield failing("B50800B713FBC200")  # a branch to before it
    yield failing("B50800B713021000000000" "46C200")  # a branch into a literal
    yield passing("B50800B7:0 A5:0 14FE:1 C2:0 00:0")  # a branch back to the body's first byte
    yield passing("B50800B7:0 33:0 46:- 46:- C2:- 00:0")  # no heights in dead code
    yield failing("B50800B73315C200")  # dead code that gives 11
    yield failing("B50800B7330000C200")  # dead code that gives 18
    yield failing("B50800B77B")  # no C2: 10


def cells_and_frames():
    """Rule 3: return cells over all frames, and frames."""
    inner = "B50800B7:0 {}C2:0"
    outer = "B50801B7:0 " + to_return(10) + "0800:0 " + from_return(10) + "C2:0"
    caller = to_return(10) + "0801:0 00:0"
    yield passing(" ".join((inner.format(to_return(12) + from_return(12)), outer, caller)))  # 10 + 10 + 12 are 32
    yield failing(bare(" ".join((inner.format(to_return(13) + from_return(13)), outer, caller))))  # 33
    yield passing(inner.format(to_return(32) + from_return(32)) + " 00:0")  # 32 in a body that nothing calls
    yield failing(bare(inner.format(to_return(33) + from_return(33)) + " 00:0"))  # 33 there
    yield passing(to_return(32) + "00:0")
    yield failing("A530" * 33 + "00")


def spans():
    """Rule 4."""
    yield failing("A51403100000000000")  # a branch into a literal that is reached too
    yield failing("B50800B7130313FFC213FC")  # a branch from outside to a loop in a body's dead code: it overlaps the b(:)
    yield failing("B50800B77BC213FD00")  # a branch from outside to a body's first byte: its C2 is out of place there too
    yield passing("CC:0 13FFFF:0 00:-")  # back to just behind CC
    yield failing("CC13FFFE00", WIDE)  # back to CC itself: the lower end is in the span, though no width changes
    yield failing("7BCC13FFFD00", WIDE)  # back over it
    yield failing("7BCC13FFFD00")  # back over it, and the width changes
    yield passing("A5:0 1401:1 CC:0 00:0")  # forward to exactly CC
    yield failing("A51402CC00")  # forward over it
    yield passing("B50800B9:0 13FF:0 00:-")  # back to just behind a defining token
    yield failing("B50800B913FB00")  # back to the token itself
    yield failing("7BB50800B913FA00")  # back over it
    yield failing("7B011F13FC00")  # back over new-device
    yield passing("1301:0 B50800B9:0 00:0")  # forward to exactly the token: the higher end is not in the span
    yield passing("A5:0 1401:1 B50800B9:0 00:0")  # the same by b?branch
    yield failing("A51405B50800B900")  # forward over it
    yield failing("A51406B50800B7C200")  # forward over a body
    yield failing("A51405011F012700")  # forward over new-device and finish-device
    yield passing("1305:0 011F0127:- 00:0")  # over both where neither is reached
    yield passing("1306:0 B50800B7C2:- 00:0")  # over a body that is not reached
    yield passing("CC:0 130002:0 00:0")  # behind CC an offset has 16 bits
    yield passing("B50800B7:0 A5:0 1401:1 C2:0 CC:0 0800:0 00:0")  # a body keeps the width of its place
    yield passing("A5:0 140002:1 00:0", WIDE)  # start1 has 16 bits from the first


def numbers_and_nodes():
    """Rule 5."""
    yield failing("0800B50800B7C200")  # a call of a number that is defined later
    yield failing("B50800B70801C2B50801B7C200")  # the same in a body
    yield failing("B50800B70800C200")  # a body that calls itself
    yield failing("1306B50800B7C2080000")  # a number whose defining token is not reached
    yield failing("1304080000B50800B913F8")  # used at a lower place than defined: the branch back has the token in its span
    yield failing("B50800B9B50800B900")  # defined twice
    yield failing("B50800B9A5C3080000")  # b(to) of a variable: 12
    for count in (256, 257):
        line, told = passing(" ".join(f"B5{0x800 + k:04X}B9:0" for k in range(count)) + " 00:0")
        yield line, told if count <= 256 else refused(31)  # the 257th is 13
    for count in (30, 31):
        line, told = passing("011F:0 0127:0 " * count + "00:0")
        yield line, told if count <= 30 else refused(31)  # two nodes are there from the first: the 31st makes 33
    yield passing("011F:0 " * 30 + "0127:0 " * 30 + "00:0")  # 30 children, each of the one before
    yield failing("012700")  # finish-device with no child open
    yield failing("011FA5140200" "012700")  # one way finishes with a child open
    yield passing("011F:0 0127:0 A5:0 1402:1 00:0 00:0")  # both ways finish with none open


def tokens_refused():
    """Rule 6."""
    yield failing("137F00")  # a branch behind the program: 19
    yield failing("A5147F00")  # whether or not it is taken
    yield failing("130200")  # to the length: 19
    yield failing("13FE00")  # to place 7: 19
    yield failing("3300")  # exit outside bodies: 18
    yield failing("C200")  # b(;) too
    yield failing("B50800B700C200")  # end0 in a body: 18
    yield failing("B50800B7CCC200")  # CC in a body
    yield failing("B50800B7011F0127C200")  # new-device in a body
    yield failing("B546B900")  # a new number below 800: 11
    yield failing("B50800BB00")  # a kind that is none: 11
    yield failing("10000000")  # a literal that the program's end cuts: 10
    yield failing("1205616161")  # a string that it cuts: 10
    yield passing("00:0 15:- 10:-")  # tokens that are not reached may be anything


PARTS = (
    worked_cases,
    bench_roms,
    readings,
    sizes,
    headers,
    long_cases,
    spread_cases,
    heights,
    bodies,
    cells_and_frames,
    spans,
    numbers_and_nodes,
    tokens_refused,
)


def cases():
    for part in PARTS:
        yield from part()


if __name__ == "__main__":
    sys.exit(written.main(SCREENS, cases()))
