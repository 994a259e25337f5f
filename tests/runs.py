#!/usr/bin/env python3
"""What crates/runs is run on and must print: the worked cases, property names byte by byte (tests/names.py), long ROMs (tests/long.py),
spread ROMs (tests/spread.py), the bench ROMs of document 01 that only run, every condition of refusal 7, states with another ROM than the
one that was opened, whole states that no run leaves, the order of the tests, and lookups. The worked cases were worked out apart from the
Rattle code, the rest by hand here.

    python3 tests/runs.py           writes crates/runs/stdin and crates/runs/stdout
    python3 tests/runs.py --check   compares them with what it would write, and exits 1 where they differ

A case starts with 'case HEXROM BUDGET' ('-': no bytes; paths may stand behind) and ends with '.'. Of the lines between, these are compared:

    open N                 0 opened, else the refusal, and then nothing more
    run finished | run budget | run refused N
    steps N
    place P width W
    data X X ...           the lowest first
    return X X ...
    frames R:B ...         the oldest first: return place, base
    numbers N:K:V ...      the oldest first: number, kind, value (of a colon the body's place, of a variable its address)
    nodes A P P ...        the active node, then each node's parent, node 0 first
    prop NODE NAME VALUE   a line each, in store order; hex, '-' where empty
    work N SUM             the work place, CRC-32 of the 16,384 work bytes
    store SUM              CRC-32 of the 16,384 store bytes
    find PATH N            N the refusal; or 'node K'; or 'value HEX'; the path in hex, with ':' and a name behind it the property

The lines screen and marks belong to calls that crates/runs does not make. Before the lookups it prints the node table, which is worked out
here from the lines nodes and prop:

    rows P:C ...           each node's parent and count of properties
"""
import pathlib
import sys

import long
import names
import roms
import spread
import written
from roms import left, put, rows, text, with_header

RUNS = pathlib.Path(__file__).parent.parent / "crates" / "runs"
NOT_RUN = ("screen", "marks")


def as_run(cases):
    """Of each case its line of input, and the lines that it must give."""
    for (rom, *rest), told in cases:
        yield " ".join(["R", rom.replace("-", ""), *rest]), [line for line in told if roms.kind(line) not in NOT_RUN]


def worked_cases():
    for line, told in as_run(roms.worked_cases()):
        yield line, with_rows(told)


def name_cases():
    return as_run(names.cases())


def long_cases():
    return as_run(long.cases())


def spread_cases():
    return as_run(spread.cases())


def with_rows(lines):
    """The lines of a run, and the node table behind what is said of the store."""
    told = []
    for line in lines:
        told.append(line)
        if roms.kind(line) == "store":
            told.append(rows(told))
    return told


def without_rows(lines):
    return [line for line in lines if roms.kind(line) != "rows"]


SCALE = bytes.fromhex("FD0805170000001E12057363616C650201A8011112056C616E6573011000")
SCALE_STORE = b"name" + b"scale\0" + b"lanes" + bytes([0, 0, 0, 3])
SCALE_PROPS = ("1 6E616D65 7363616C6500", "1 6C616E6573 00000003")


def bench_roms():
    """The bench ROMs of document 01 without a star."""
    pushes = with_header(b"\xA6" * 64 + b"\x00")
    yield f"R {pushes.hex().upper()} 1000", left("finished", 65, 73, data=[1] * 64)
    pushes = with_header(b"\xA6" * 65 + b"\x00")
    yield f"R {pushes.hex().upper()} 1000", left("refused 15", 64, 72, data=[1] * 64)
    yield "R FD0800000000000800 1000", ["open 4"]
    yield f"R {SCALE.hex().upper()} 100000", left(
        "finished", 7, 30, props=SCALE_PROPS, work_place=4, work=bytes([0, 0, 0, 3]), store=SCALE_STORE
    )
    unsummed = SCALE[:2] + bytes(2) + SCALE[4:]
    yield f"R {unsummed.hex().upper()} 100000", ["open 5"]


# Two calls open after 14 tokens, with bases 0 and 1 and a return cell each: 8 new-device, 10 b(") "scale", 17 device-name, 19 number 800
# (its body from 23: 1 >r 2 drop r> drop), 30 number 801 (its body from 34: 0 >r 800 r> drop), 41 the variable 802, 45 3, 46 801, 48 drop,
# 49 finish-device, 51 end0.
CALLS = with_header(
    bytes.fromhex("011F" "12057363616C65" "0201" "B50800B7A630A7463146C2" "B50801B7A53008003146C2" "B50802B9" "A8" "0801" "46" "0127" "00")
)
CALLS_NUMBERS = "800:colon:00000017 801:colon:00000022 802:variable:20000000"
CALLS_LEFT = {
    "numbers": CALLS_NUMBERS,
    "props": ("2 6E616D65 7363616C6500",),
    "work_place": 4,
    "store": b"name" + b"scale\0",
}


def calls_open():
    """The state that is damaged below, and how it goes on whole."""
    rom = CALLS.hex().upper()
    yield f"R {rom} 14", left("budget", 14, 26, data=(3, 2), back=(0, 1), frames="48:0 38:1", nodes="2 0 0 1", **CALLS_LEFT)
    yield f"R {rom} 1000", left("finished", 24, 52, nodes="1 0 0 1", **CALLS_LEFT)


# The conditions of refusal 7 as document 01 has them, and behind them those of the first node, by the number under which crates/runs knows
# each.
DAMAGES = (
    "data height 65",
    "return height 33",
    "17 calls",
    "work place 16,385",
    "257 program numbers",
    "1 node",
    "33 nodes",
    "129 properties",
    "a name of 0 bytes",
    "a name of 32 bytes",
    "a value of 16,385 bytes",
    "program number 7FF",
    "program number 1000",
    "place 7",
    "place above the length",
    "return place 7",
    "return place above the length",
    "body place 7",
    "body place above the length",
    "a base above the next one's",
    "the last base above the return height",
    "the active node absent",
    "a record's node absent",
    "node 0 active",
    "a parent not older than its node",
    "node 1 its own parent",
    "the root's parent not 0",
    "live bytes above 16,384, each length in its limit",
    "the first node absent",
    "node 0 the first",
)
WHOLE = 99
# The damages that the finished scale ROM, which has no calls and no numbers, can have too: a finished state is tested like any other.
OF_A_FINISHED = (0, 1, 2, 3, 4, 5, 6, 7, 8, 9, 10, 13, 14, 21, 22, 23, 25, 26, 27, 28, 29)


# A lookup of a node and of a property and the node table, by the tree's calls and by the state's. Those of the tree refuse a damage in
# the tree, and which node is active and which the first is not in the tree; those of the state refuse every one, and the table's columns
# are then as they were.
IN_THE_TREE = (5, 6, 7, 8, 9, 10, 22, 24, 25, 26, 27)
NOT_FOUND = "lookups 30 30 0"
REFUSED_LOOKUPS = "lookups 7 7 7 kept kept"


def lookups_of(in_the_tree, in_the_state):
    return [REFUSED_LOOKUPS if in_the_tree else NOT_FOUND, "state " + (REFUSED_LOOKUPS if in_the_state else NOT_FOUND)]


def refused_state(k):
    return [*lookups_of(k in IN_THE_TREE, True), f"damaged {k} step refused 7 run refused 7 steps 0 unchanged"]


def damages():
    calls, scale = CALLS.hex().upper(), SCALE.hex().upper()
    for k in range(len(DAMAGES)):
        yield f"D {k:02} {calls} 14", refused_state(k)
    for k in OF_A_FINISHED:
        yield f"D {k:02} {scale} 100000", refused_state(k)
    yield f"D {WHOLE} {calls} 14", [*lookups_of(False, False), f"damaged {WHOLE} step going run finished steps 10 changed"]
    yield f"D {WHOLE} {scale} 100000", [*lookups_of(False, False), f"damaged {WHOLE} step finished run finished steps 0 unchanged"]


# Run for 6 tokens, this leaves 800, a colon definition (its body at 12: 1), 801, a value of 2, 802, a constant of 3, and node 2 active. The
# rest: 24 800, 26 801, 28 1, 29 b(to) 801, 32 number 803 (its body at 36: 800), 39 803, 41 b(") "a", 44 device-name, 46 finish-device, 48
# end0.
ODD = with_header(
    bytes.fromhex("B50800B7A6C2" "A7B50801B8" "A8B50802BA" "011F" "0800" "0801" "A6C30801" "B50803B70800C2" "0803" "1201610201" "0127" "00")
)
ODD_NUMBERS = "{0}0000000C 801:value:00000001 {1}:constant:00000003 803:colon:00000026"
ODD_LEFT = {"props": ("2 6E616D65 6100",), "store": b"name" + b"a\0"}


def odd_states():
    """Whole states that no run leaves, by the number under which crates/runs knows each, run with the highest budget."""
    numbers = ODD_NUMBERS.format("800:colon:", "802")
    twice = ODD_NUMBERS.format("800:colon:", "801")
    unknown = ODD_NUMBERS.format("800C8", "802")
    told = (
        # 802 is called 801 too: the oldest counts, which is the value
        left("finished", 16, 51, data=(1, 2, 1), numbers=twice, nodes="1 0 0 1", **ODD_LEFT),
        # 800 is of kind C8: it gives its value, as a constant does, and no body is entered
        left("finished", 12, 51, data=(12, 2, 12), numbers=unknown, nodes="1 0 0 1", **ODD_LEFT),
        # node 2 is a child of the root: finish-device is carried out and makes the root active, and that is 7
        left("refused 7", 15, 50, data=(1, 2, 1), numbers=numbers, nodes="0 0 0 0", **ODD_LEFT),
        # the store has bytes behind the live ones: device-name leaves zeros there
        left("finished", 16, 51, data=(1, 2, 1), numbers=numbers, nodes="1 0 0 1", **ODD_LEFT),
    )
    for k, lines in enumerate(told):
        yield f"W {k:02} {ODD.hex().upper()} 6", without_rows(lines)


NARROW, WIDE, TWO, FOUR = roms.NARROW, roms.WIDE, roms.TWO, roms.FOUR
# After one token, b(") "a", this is at device-name: place 11, and the string's address and length are there. Its length is 14.
NAMED = bytes.fromhex("120161" "0201" "00")
NAMED_DATA = (0x1000000A, 1)


def burnt(program, start):
    return roms.apart(with_header(program, start), b"\x13")


def lent(k, opened, budget, other, answers, told):
    """A state that a ROM's run leaves, and what is said of it where another ROM is lent. crates/runs has room for 256 bytes of each."""
    assert max(len(opened), len(other)) <= 256
    line = f"L {k:02} {roms.in_hex(opened)} {budget} {roms.in_hex(other)}"
    return line, [f"lent {k} {answers}", *without_rows(told)]


def other_roms():
    """How far apart bytes lie is said by the first byte of the ROM that is lent, whichever was opened. A step tests no start byte."""
    done = left("finished", 2, 14, 16, props=("1 6E616D65 6100",), store=b"name" + b"a\0")
    for opened in (WIDE, TWO, FOUR):
        for other in (WIDE, TWO, FOUR, 0xF0):
            if other in (WIDE, 0xF0):
                answers, told = "step going run finished steps 2 changed", done
            else:
                answers, told = NOT_DONE.format(22), left("refused 22", 0, 11, 16, data=NAMED_DATA)
            yield lent(WHOLE, burnt(NAMED, opened), 1, burnt(NAMED, other), answers, told)
    # the ROM is read where the first byte says: its own header, by @
    for opened, other in ((WIDE, FOUR), (TWO, WIDE), (FOUR, TWO)):
        program = bytes.fromhex("1010000000" "6D" "00")
        cell = int.from_bytes(with_header(program, other)[:4], "big")
        told = left("finished", 2, 15, 16, data=(cell,))
        yield lent(WHOLE, burnt(program, opened), 1, burnt(program, other), "step going run finished steps 2 changed", told)
    # the width is the state's: 8 bits of offset, though a spread ROM that is opened has 16
    program = bytes.fromhex("7B" "1302" "FE" "00")
    told = left("finished", 2, 13, 8)
    yield lent(WHOLE, burnt(program, NARROW), 1, burnt(program, TWO), "step going run finished steps 2 changed", told)


def other_sizes():
    """Both parts of 1 come before 7, and 4 asks for the bytes that the state's length needs: 14, 27 and 53 of them."""
    opened = burnt(NAMED, WIDE)
    high = (*NAMED_DATA, *[0] * 63)
    for start, least, needed in ((WIDE, 8, 14), (0xF0, 8, 14), (TWO, 15, 27), (FOUR, 29, 53)):
        whole = burnt(NAMED, start)
        assert len(whole) == needed
        for size, number in ((least - 1, 1), (least, 4), (needed - 1, 4)):
            told = left(f"refused {number}", 0, 11, 16, data=NAMED_DATA)
            yield lent(WHOLE, opened, 1, whole[:size], NOT_DONE.format(number), told)
        # the same with 65 cells on the data stack
        for size, number in ((least - 1, 1), (least, 7), (needed, 7)):
            yield lent(0, opened, 1, whole[:size], NOT_DONE.format(number), left(f"refused {number}", 0, 11, 16, data=high))
    # a finished state is tested too
    finished = burnt(b"\0", WIDE)
    for size, number in ((14, 1), (16, 4)):
        told = left(f"refused {number}", 0, 9, 16)
        yield lent(WHOLE, finished, 9, burnt(b"\0", TWO)[:size], NOT_DONE.format(number), told)
    yield lent(WHOLE, finished, 9, burnt(b"\0", TWO), FINISHED, left("finished", 0, 9, 16))


def over_itself():
    """encode-string of bytes that it overwrites: abcd encoded as a number, then its four bytes and the two behind them as a string."""
    rom = with_header(bytes.fromhex("1061626364" "0111" "46" "1000000006" "0114" "00"))
    work = b"abcd" + b"abcd\0\0" + b"\0"
    yield f"R {rom.hex().upper()} 100", left("finished", 6, len(rom), data=(0x20000004, 7), work_place=len(work), work=work)


# States and buffers with more than one thing wrong, in the order in which crates/runs offers them, and what the step and the run say: each
# of 6, 1, 7, 4, finish and budget comes before all behind it.
NOT_DONE = "step refused {0} run refused {0} steps 0 unchanged"
FINISHED = "step finished run finished steps 0 unchanged"
ORDERS = (
    ("damaged state, no ROM, work memory one byte short", NOT_DONE.format(6)),
    ("damaged state, no ROM, store one byte long", NOT_DONE.format(6)),
    ("damaged state, no ROM", NOT_DONE.format(1)),
    ("damaged state, ROM of 65,537 bytes", NOT_DONE.format(1)),
    ("damaged state with a length above the ROM", NOT_DONE.format(7)),
    ("length above the ROM, budget 0", NOT_DONE.format(4)),
    ("unfinished, budget 0", "step going run budget steps 0 changed"),
    ("finished, budget 0", FINISHED),
    ("finished", FINISHED),
    ("finished and damaged", NOT_DONE.format(7)),
    ("finished, length above the ROM", NOT_DONE.format(4)),
)
OPENINGS = (
    ("no ROM: the all-zero state, the buffers as they were", "refused 1 unchanged"),
    ("a good ROM", "going changed"),
)


def orders():
    lines = [f"order {k} {told}" for k, (_, told) in enumerate(ORDERS)]
    lines += [f"opening {told}" for _, told in OPENINGS]
    # by the tree's calls, a store one byte short and one byte long, a damaged tree, a bad path, a good one: a node and a property each
    lines.append("lookup order 6 6 6 6 7 7 29 29 30 30")
    # 31 parents, 33 counts, a damaged tree: each column as it was
    lines.append("table order 6 kept kept 6 kept kept 7 kept kept")
    # the same of a state whose tree is whole and whose data stack has 65 cells, with a path of good form too before the state that is whole
    lines.append("state lookup order 6 6 6 6 7 7 7 7 29 29 30 30")
    lines.append("state table order 6 kept kept 6 kept kept 7 kept kept")
    yield f"O {CALLS.hex().upper()} 14", lines


NEW, FINISH = bytes.fromhex("011F"), bytes.fromhex("0127")


def device_name(name):
    return text(name) + bytes.fromhex("0201")


# Node 1 is "a" and has the children 2 "b", 3 "b" again with a child 4 "c", 5 "d" by a name without a null, 6 "x" and two nulls, 7 with the
# name of no bytes, 8 without a name, 9 "a/b", and 10, called by bytes that no property's name may have; node 1 has the properties "empty"
# and "v" beside its name.
FAMILY = (
    (device_name(b"a"), ("1", b"name", b"a\0")),
    (put(b"empty", b""), ("1", b"empty", b"")),
    (put(b"v", b"\x12\x34"), ("1", b"v", b"\x12\x34")),
    (NEW + device_name(b"b") + FINISH, ("2", b"name", b"b\0")),
    (NEW + device_name(b"b"), ("3", b"name", b"b\0")),
    (NEW + device_name(b"c") + FINISH + FINISH, ("4", b"name", b"c\0")),
    (NEW + put(b"name", b"d") + FINISH, ("5", b"name", b"d")),
    (NEW + put(b"name", b"x\0\0") + FINISH, ("6", b"name", b"x\0\0")),
    (NEW + device_name(b"") + FINISH, ("7", b"name", b"\0")),
    (NEW + FINISH, None),
    (NEW + device_name(b"a/b") + FINISH, ("9", b"name", b"a/b\0")),
    (NEW + device_name(b"SUNW,[b]@1:0") + FINISH, ("10", b"name", b"SUNW,[b]@1:0\0")),
)
FINDS = (
    (b"/", None, "node 0"),
    (b"/a", None, "node 1"),
    (b"/a/b", None, "node 2"),
    (b"/a/b/c", None, "30"),  # the older "b" has no child, and there is no going back
    (b"/a/d", None, "node 5"),
    (b"/a/d\0", None, "30"),
    (b"/a/x", None, "30"),
    (b"/a/x\0", None, "node 6"),
    (b"/a/\0", None, "30"),
    (b"/a/a", None, "30"),
    (b"/b", None, "30"),
    (b"", None, "29"),
    (b"a", None, "29"),
    (b"a/b", None, "29"),
    (b"//", None, "29"),
    (b"/a/", None, "29"),
    (b"//a", None, "29"),
    (b"/a//b", None, "29"),
    (b"/q//b", None, "29"),  # the form is judged before anything is looked for
    (b"/a", b"v", "value 1234"),
    (b"/a", b"empty", "value -"),
    (b"/a", b"name", "value 6100"),
    (b"/a/b", b"name", "value 6200"),
    (b"/a/d", b"name", "value 64"),
    (b"/a", b"w", "30"),
    (b"/a", b"", "30"),
    (b"/a", b"v" * 32, "30"),
    (b"/a/q", b"v", "30"),
    (b"/", b"name", "30"),
    (b"/a/", b"v", "29"),
    # no lookup judges a name: a part is matched with a value, which may have any bytes, and a property's name that 26 refuses is not there
    (b"/a/SUNW,[b]@1:0", None, "node 10"),
    (b"/a/SUNW,[b]@1:0", b"name", "value 53554E572C5B625D40313A3000"),
    (b"/A", None, "30"),
    (b"/a:b", None, "30"),
    (b"/a/[b]", None, "30"),
    (b"/a\\b", None, "30"),
    (b"/a@b/c", None, "30"),
    (b"/a", b"V", "30"),
    (b"/a", b"v:", "30"),
    (b"/a", b"/v", "30"),
    (b"/a", b"v/", "30"),
    (b"/a", b"[v]", "30"),
    (b"/a", b"v\\", "30"),
    (b"/a", b"@v", "30"),
    (b"/a", b" ", "30"),
)


def lookups():
    """A tree in which names are alike, and lookups by every form of a path."""
    rom = with_header(b"".join(tokens for tokens, _ in FAMILY) + b"\0")
    asked = [path.hex().upper() + ("" if name is None else ":" + name.hex().upper()) for path, name, _ in FINDS]
    held = [made for _, made in FAMILY if made]
    props = [f"{node} {name.hex().upper()} {value.hex().upper() or '-'}" for node, name, value in held]
    nodes = sum(tokens.count(NEW) + tokens.count(FINISH) for tokens, _ in FAMILY)
    steps = 1 + nodes + sum(2 if b"\x02\x01" in tokens else 3 for tokens, made in FAMILY if made)
    store = b"".join(name + value for _, name, value in held)
    told = left("finished", steps, len(rom), nodes="1 0 0 1 1 3 1 1 1 1 1 1", props=props, store=store)
    told += [f"find {word} {found}" for word, (_, _, found) in zip(asked, FINDS)]
    yield " ".join([f"R {rom.hex().upper()} 1000", *asked]), told


PARTS = (
    worked_cases,
    name_cases,
    long_cases,
    spread_cases,
    bench_roms,
    calls_open,
    damages,
    other_roms,
    other_sizes,
    odd_states,
    over_itself,
    orders,
    lookups,
)


def cases():
    for part in PARTS:
        yield from part()


if __name__ == "__main__":
    sys.exit(written.main(RUNS, cases()))
