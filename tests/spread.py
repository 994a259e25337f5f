"""ROMs whose FCode bytes lie two or four apart, as cases in the form of the worked ones, worked out by hand here: the order in which they
are refused, gaps full of anything, lengths that would be small if a product wrapped, the largest ROMs, the same programs behind F1, F2 and
F3, the ROM window, and strings, which no token takes from a spread ROM.
"""
import random

from long import END, GO, MOST, fails, filled, level, passes, shut, to
from roms import FOUR, TWO, WIDE, apart, left, with_header, words

SPREADS = ((TWO, 2), (FOUR, 4))
ALIKE = (WIDE, TWO, FOUR)
NONE, FULL = b"\x00", b"\xFF"
draw = random.Random(1275)
ANY = bytes(draw.randrange(256) for _ in range(61))


def rom_of(program, start, gaps=ANY):
    return apart(with_header(program, start), gaps)


def openings():
    """Refusals 1 to 5 in their order, each with all behind it wrong too where that can be."""
    for start in (0xF0, TWO, FOUR):
        yield shut(bytes([start] * 7), 1)
    # 2 at any size from 8 on: the second part of 1 is asked of spread ROMs alone
    for start, size in ((0xF0, 8), (0xF0, 14), (0xF0, 28), (0x00, 10), (0xF4, 10), (0xFF, 10)):
        yield shut(bytes([start] * size), 2)
    for start, spread in SPREADS:
        header = 7 * spread + 1
        for size in (8, header - 1):
            yield shut(bytes([start] * size), 1)
        for size in (header, header + spread):
            yield shut(bytes([start] * size), 3)
        good = with_header(END, start)
        unsummed = good[:2] + b"\0\1" + good[4:]
        yield shut(apart(good)[: header - 1], 1)
        yield shut(apart(good)[:header], 4)
        yield shut(apart(unsummed)[:-1], 4)
        yield shut(apart(unsummed), 5)
        yield shut(apart(unsummed[:1] + b"\7" + unsummed[2:])[:-1], 3)
        # a header that is good where bytes adjoin
        yield shut(bytes([start]) + with_header(END * 40)[1:], 3)


def lengths():
    """(length - 1) times the spread, and one. In 32 bits 80000009 would ask for 17 bytes of F2, 40000009 and C0000009 for 33 of F3, and
    80000001 and 40000001 for one."""
    for start, _ in SPREADS:
        for length in (0, 8, 10, 0x10009, 0x40000000, 0x40000001, 0x40000009, 0x80000001, 0x80000009, 0xC0000009, 0xFFFFFFFF):
            fcode = with_header(END, start)
            rom = apart(fcode[:4] + length.to_bytes(4, "big") + fcode[8:], NONE)
            yield shut(rom, 4)


def sums():
    """The sum is that of FCode bytes 8 to length-1, and of nothing else in the ROM."""
    for start, spread in SPREADS:
        fcode = with_header(bytes.fromhex("A646FF"), start)
        rom = bytearray(apart(fcode, b"\1"))
        for wrong in (sum(rom[8 * spread :]), sum(rom[8 : len(fcode)]), 0, 0xA646):
            rom[2 * spread], rom[3 * spread] = divmod(wrong, 256)
            yield shut(bytes(rom), 5)
        yield shut(apart(fcode)[:-1] + b"\xFE", 5)


def gaps():
    """Bytes between and behind those of the program are anything, and the last gap is there, in part or not at all."""
    program, heights = words("A6:0 A7:1 1E:2 00:1")
    for start, spread in SPREADS:
        fcode = with_header(program, start)
        told = left("finished", 4, 12, 16, data=(3,))
        roms = [apart(fcode, filler) for filler in (NONE, FULL, ANY, ANY[1:], bytes([start]), None)]
        roms += [apart(fcode, NONE) + FULL * count for count in (1, spread - 1, spread, 40)]
        for rom in roms:
            yield passes(rom, heights, told)


def sizes():
    """Gaps count among the 65,536."""
    for start, spread in SPREADS:
        most = MOST // spread
        rom = apart(filled({}, most, start))
        whole = passes(rom, level(8, most), left("finished", most - 8, most, 16))
        yield whole
        yield passes(rom + bytes(MOST - len(rom)), level(8, most), whole[1][2:])
        yield shut(rom + bytes(MOST + 1 - len(rom)), 1)
        yield shut(rom[:-1], 4)
        # one FCode byte more is one byte too many, and too few for the length without it
        rom = apart(filled({}, most + 1, start))
        yield shut(rom, 1)
        yield shut(rom[:-1], 4)
        # a short program in a large ROM
        rom = apart(with_header(END, start))
        yield passes(rom + FULL * (MOST - len(rom)), {8: 0}, left("finished", 1, 9, 16))
        yield shut(rom + FULL * (MOST + 1 - len(rom)), 1)
        # from the first place to the last one, from there back, and to the length
        last = most - 3
        rom = apart(filled({8: to(GO, 8, last), 11: END, last: to(GO, last, 11)}, most, start))
        yield passes(rom, {8: 0, last: 0, 11: 0}, left("finished", 3, 12, 16))
        yield fails(apart(filled({8: to(GO, 8, most)}, most, start)), left("refused 19", 0, 8, 16))


# Tokens with their heights, and what a run leaves. No string lies in the ROM where a token takes it.
PROGRAMS = (
    # b?branch forward, taken; bbranch over bytes that are no tokens
    ("A5:0 140003:1 7B:0 00:0", ("finished", 3, 14), {}),
    ("130005:0 FEFEFE:- 00:0", ("finished", 2, 15), {}),
    # down from 3 to 0 by b?branch backward
    ("1000000003:0 A6:1 1F:2 47:1 34:2 14FFFB:2 46:1 00:0", ("finished", 18, 22), {}),
    # offset16 changes nothing
    ("CC:0 130002:0 FF:0", ("finished", 3, 13), {}),
    # a body that adds 1, a value 2, a constant 3, a variable: 801 becomes 3, and 803 holds it
    (
        "B50800B7:0 A6:1 30:2 31:1 1E:2 C2:1 A7:0 B601610801B8:1 A8:0 CA0262620802BA:1 B50803B9:0"
        " 0801:0 0800:1 C30801:1 0802:0 0803:1 72:2 0801:0 0803:1 6D:2 00:2",
        ("finished", 21, 54),
        {
            "data": (3, 3),
            "numbers": "800:colon:0000000C 801:value:00000003 802:constant:00000003 803:variable:20000000",
            "work_place": 4,
            "work": bytes([0, 0, 0, 3]),
        },
    ),
    # b(") is no token that takes a string: it says where one lies, by FCode bytes, and c@ reads it there
    ("1203616263:0 46:2 71:1 00:1", ("finished", 4, 16), {"data": (0x61,)}),
    ("1200:0 00:2", ("finished", 2, 11), {"data": (0x1000000A, 0)}),
    # encode+ looks at no byte
    ("120161:0 101000000B:2 A6:3 0112:4 00:2", ("finished", 5, 20), {"data": (0x1000000A, 2)}),
    # names, values and an empty one in work memory, which encode-int fills; its end is the window's
    (
        "106C616D70:0 0111:1 0201:2 106B2D3200:0 0111:1 0119:2 1073696D00:0 0111:1 011A:2 1020004000:0 A5:1 1020000000:2 A7:3 0110:4 00:0",
        ("finished", 15, 50),
        {
            "props": (
                "1 6E616D65 6C616D7000",
                "1 6D6F64656C 6B2D320000",
                "1 6465766963655F74797065 73696D0000",
                "1 6C61 -",
            ),
            "work_place": 12,
            "work": b"lampk-2\0sim\0",
            "store": b"namelamp\0modelk-2\0\0device_typesim\0\0la",
        },
    ),
    ("1061626364:0 0111:1 0114:2 00:2", ("finished", 4, 18), {"data": (0x20000004, 5), "work_place": 9, "work": b"abcdabcd\0"}),
    # refused in the same place: a cell that is not there, a token that is cut off, a branch whose 8 bits would circle
    ("A6:0 A7:1 1F:2 46:1 30:- 00:-", ("refused 14", 4, 12), {}),
    ("7B:- 10000000:-", ("refused 10", 1, 9), {}),
    ("13FF00:-", ("refused 19", 0, 8), {}),
)


def alike():
    """The same program behind F1, F2 and F3."""
    for line, (answer, steps, place), kept in PROGRAMS:
        program, heights = words(line)
        told = left(answer, steps, place, 16, **kept)
        for start, filler in ((WIDE, None), (TWO, ANY), (FOUR, NONE)):
            rom = rom_of(program, start, filler)
            yield passes(rom, heights, told) if answer == "finished" else fails(rom, told)
    # a token that is cut off by the length, with the rest of its bytes behind that; the paths of a tree
    for start in ALIKE:
        fcode = with_header(bytes.fromhex("10000000"), start)
        yield fails(apart(fcode + bytes(9), NONE), left("refused 10", 0, 8, 16))
        program, heights = words("106C616D70:0 0111:1 0201:2 00:0")
        kept = {"props": ("1 6E616D65 6C616D7000",), "work_place": 4, "work": b"lamp", "store": b"namelamp\0"}
        (rom, budget), told = passes(rom_of(program, start), heights, left("finished", 4, 18, 16, **kept))
        node, name = "2F6C616D70", "2F6C616D70:6E616D65"
        yield [rom, budget, node, name], [*told, f"find {node} node 1", f"find {name} value 6C616D7000"]


def windows():
    """@ and c@ read FCode bytes, the header's and the last ones too. The window ends at the length, whatever the ROM has."""
    for start in ALIKE:
        program, heights = words(
            "7B:0 1010000000:0 6D:1 1010000004:1 6D:2 1010000007:2 71:3 1010000024:3 6D:4 1010000027:4 71:5 FF:5"
        )
        fcode = with_header(program, start)
        data = (int.from_bytes(fcode[:4], "big"), 40, 40, 0x002771FF, 0xFF)
        yield passes(apart(fcode, ANY), heights, left("finished", 12, 40, 16, data=data))
    for start, _ in SPREADS:
        # a program of 15 bytes: 8 is the last that four bytes may be fetched from, 14 the last of all
        for fetch, address, answer, found in (
            ("6D", 0x10000008, "finished", 0x10100000),
            ("6D", 0x10000009, "refused 23", None),
            ("6D", 0x1000000C, "refused 22", None),
            ("6D", 0x1000000D, "refused 22", None),
            ("71", 0x1000000E, "finished", 0x00),
            ("71", 0x1000000F, "refused 22", None),
            ("71", 0x1000001C, "refused 22", None),
        ):
            program, heights = words(f"10{address:08X}:0 {fetch}:1 00:1")
            steps, place, cell = (1, 13, address) if found is None else (3, 15, found)
            rom = rom_of(program, start, NONE) + FULL * 8
            yield passes(rom, heights, left(answer, steps, place, 16, data=(cell,)))
    # what is stored there is refused as ever
    program, heights = words("A6:0 1010000008:1 75:2 00:0")
    yield passes(rom_of(program, TWO), heights, left("refused 22", 2, 14, 16, data=(1, 0x10000008)))


LENGTH = 17  # of the programs with one string: its address, its length, a token of two bytes and an end
EMPTY = "10{:08X}:0 A5:1 {}:2 00:{}"
TITLES = {"0201": b"name", "0119": b"model", "011A": b"device_type"}
AT_A = 0x1000000A


def written(name, value, work=b""):
    """What a run leaves that wrote a property of node 1."""
    shown = value.hex().upper() or "-"
    return {"props": (f"1 {name.hex().upper()} {shown}",), "store": name + value, "work_place": len(work), "work": work}


def strings():
    """A token that takes a string refuses one in the window of a spread ROM with 22, and takes it from any other."""
    for token, title in TITLES.items():
        program, heights = words(f"120161:0 {token}:2 00:0")
        yield passes(rom_of(program, WIDE), heights, left("finished", 3, 14, 16, **written(title, b"a\0")))
        for start, _ in SPREADS:
            yield passes(rom_of(program, start), heights, left("refused 22", 1, 11, 16, data=(AT_A, 1)))
    program, heights = words("120161:0 0114:2 00:2")
    told = left("finished", 3, 14, 16, data=(0x20000000, 2), work_place=2, work=b"a\0")
    yield passes(rom_of(program, WIDE), heights, told)
    for start, _ in SPREADS:
        yield passes(rom_of(program, start), heights, left("refused 22", 1, 11, 16, data=(AT_A, 1)))
    # property: either range, and both; the byte 'a' is put into work memory first
    in_rom, in_work = "120161:{} ", "1020000000:{} A6:{} "
    for value, name in ((in_rom, in_rom), (in_work, in_rom), (in_rom, in_work), (in_work, in_work)):
        line = "1000000061:0 1020000000:1 75:2 " + value.format(0, 1) + name.format(2, 3) + "0110:4 00:0"
        program, heights = words(line)
        steps, at = len(line.split()), 8 + len(program) - 3
        held = written(b"a", b"a")
        done = left("finished", steps, at + 3, 16, **{**held, "work": b"a", "work_place": 0})
        yield passes(rom_of(program, WIDE), heights, done)
        cells = [AT_A + 11, 1] if value is in_rom else [0x20000000, 1]
        cells += [0x10000000 + at - 1, 1] if name is in_rom else [0x20000000, 1]
        refused = left("refused 22", steps - 2, at, 16, data=cells, work=b"a")
        for start, _ in SPREADS:
            yield passes(rom_of(program, start), heights, done if value is name is in_work else refused)


def empty_strings():
    """An empty one too, at the window's start, within it and at its end; in work memory it is good."""
    for address in (0x10000000, 0x1000000B, 0x10000000 + LENGTH):
        program, heights = words(EMPTY.format(address, "0201", 0))
        assert len(program) == LENGTH - 8
        yield passes(rom_of(program, WIDE), heights, left("finished", 4, LENGTH, 16, **written(b"name", b"\0")))
        for start, _ in SPREADS:
            yield passes(rom_of(program, start), heights, left("refused 22", 2, 14, 16, data=(address, 0)))
    for token, gives in (("0119", 0), ("011A", 0), ("0114", 2)):
        program, heights = words(EMPTY.format(0x10000000, token, gives))
        yield passes(rom_of(program, TWO), heights, left("refused 22", 2, 14, 16, data=(0x10000000, 0)))
    for address in (0x20000000, 0x20004000):
        program, heights = words(EMPTY.format(address, "0201", 0))
        yield passes(rom_of(program, TWO), heights, left("finished", 4, LENGTH, 16, **written(b"name", b"\0")))
    # as a property's name it would be 26 from any other ROM, and from work memory it is
    program, heights = words("1200:0 1200:2 0110:4 00:0")
    cells = (0x1000000A, 0, 0x1000000C, 0)
    yield passes(rom_of(program, WIDE), heights, left("refused 26", 2, 12, 16, data=cells))
    yield passes(rom_of(program, FOUR), heights, left("refused 22", 2, 12, 16, data=cells))
    program, heights = words("1020000000:0 A5:1 1020000000:2 A5:3 0110:4 00:0")
    yield passes(rom_of(program, FOUR), heights, left("refused 26", 4, 20, 16, data=(0x20000000, 0, 0x20000000, 0)))


def orders():
    """22 in its place: behind 14, before 24 and 26."""
    for start in ALIKE:
        yield fails(rom_of(bytes.fromhex("12016146020100"), start), left("refused 14", 2, 12, 16, data=(AT_A,)))
    # work memory is full, to the last byte
    program, heights = words("1020000000:0 1000003FFF:1 0114:2 120161:2 0114:4 00:4")
    cells = (0x20000000, 0x4000, 0x10000016, 1)
    for start, answer in ((WIDE, "refused 24"), (TWO, "refused 22")):
        yield passes(rom_of(program, start), heights, left(answer, 4, 23, 16, data=cells, work_place=16384))
    # a bad name, in the ROM and beside a value in the ROM
    program, heights = words("120141:0 120141:2 0110:4 00:0")
    for start, answer in ((WIDE, "refused 26"), (TWO, "refused 22")):
        yield passes(rom_of(program, start), heights, left(answer, 2, 14, 16, data=(AT_A, 1, AT_A + 3, 1)))
    program, heights = words("120141:0 1020000000:2 A6:3 0110:4 00:0")
    for start, answer in ((WIDE, "refused 26"), (FOUR, "refused 22")):
        yield passes(rom_of(program, start), heights, left(answer, 3, 17, 16, data=(AT_A, 1, 0x20000000, 1)))


SCALE = bytes.fromhex("12057363616C650201A8011112056C616E6573011000")
SCALE_HEIGHTS = {8: 0, 15: 2, 17: 0, 18: 1, 20: 2, 27: 4, 29: 0}


def boards():
    """Document 01's scale board: its strings lie in the ROM."""
    for start, _ in SPREADS:
        yield passes(rom_of(SCALE, start), SCALE_HEIGHTS, left("refused 22", 1, 15, 16, data=(AT_A, 5)))


def cases():
    for part in (openings, lengths, sums, gaps, sizes, alike, windows, strings, empty_strings, orders, boards):
        yield from part()
