"""ROMs up to 65,536 bytes and one of 65,537, as cases in the form of the worked ones, worked out by hand here: programs of full length
and short programs in such ROMs, branches to both ends of what an offset reaches, a body of 60,000 bytes, 256 numbers over 60,000 bytes,
strings and fetches at the last bytes.
"""
from roms import NARROW, WIDE, in_hex, left, marked, text, with_header

MOST = 65536
NOOP, END, DROP, ONE = b"\x7B", b"\x00", b"\x46", b"\xA6"
# more steps than any of these ROMs takes to its end
ENOUGH = 200000


def filled(parts, size=MOST, start=NARROW, ended=True):
    """A program of a size by the tokens at some of its places: noops between them, and an end0 as the last byte."""
    program = bytearray(NOOP * (size - 8))
    if ended:
        program[-1:] = END
    for place, tokens in parts.items():
        program[place - 8 : place - 8 + len(tokens)] = tokens
    assert len(program) == size - 8
    return with_header(bytes(program), start)


def passes(rom, heights, told, budget=ENOUGH):
    """A ROM that passes, with the data heights of its reachable tokens and what a run leaves."""
    return [in_hex(rom), str(budget)], ["screen 0", marked({place: height + 1 for place, height in heights.items()}), *told]


def fails(rom, told, budget=ENOUGH):
    return [in_hex(rom), str(budget)], ["screen 31", "marks", *told]


def shut(rom, number):
    return [in_hex(rom), str(ENOUGH)], [f"open {number}", f"screen {number}"]


def level(first, end, height=0):
    return dict.fromkeys(range(first, end), height)


def sizes():
    yield shut(bytes(MOST), 2)
    yield shut(bytes(MOST + 1), 1)
    rom = filled({})
    yield passes(rom, level(8, MOST), left("finished", MOST - 8, MOST))
    yield shut(rom + b"\0", 1)
    # its header and a short program are good, and it is a byte too long
    yield shut(with_header(END) + bytes(MOST - 8), 1)
    # the length field says one more than there is
    yield shut(rom[:4] + (MOST + 1).to_bytes(4, "big") + rom[8:], 4)
    # the last byte is in the sum
    yield shut(rom[:-1] + b"\1", 5)
    # the token behind the last byte is the one that is cut off: its place is the length
    yield fails(filled({}, ended=False), left("refused 10", MOST - 8, MOST))
    # both sides of the tables' sizes
    for size in (16384, 16385, MOST - 1):
        yield passes(filled({}, size), level(8, size), left("finished", size - 8, size))


def to(token, place, aim):
    """bbranch or b?branch at a place with 16 bits of offset, which counts from the offset's first byte."""
    offset = aim - place - 1
    assert -32768 <= offset <= 32767, offset
    return token + (offset % 65536).to_bytes(2, "big")


GO, IF = b"\x13", b"\x14"
FORTH = 32768  # a branch leads so far forward at most, counted from its own place
BACK = 32767


def branches():
    middle = 8 + FORTH
    assert to(GO, 8, middle) == b"\x13\x7F\xFF" and to(GO, middle, middle - BACK) == b"\x13\x80\x00"
    # two branches from the first place to the last byte
    rom = filled({8: to(GO, 8, middle), middle: to(GO, middle, MOST - 1)}, start=WIDE)
    yield passes(rom, {8: 0, middle: 0, MOST - 1: 0}, left("finished", 3, MOST, 16))
    # and to the length, which is no place of the program
    rom = filled({8: to(GO, 8, middle), middle: to(GO, middle, MOST)}, start=WIDE)
    yield fails(rom, left("refused 19", 1, middle, 16))
    # as far back as it goes, from the last place that has room for a branch
    last, target = MOST - 3, MOST - 3 - BACK
    rom = filled({8: to(GO, 8, middle), middle: to(GO, middle, last), last: to(GO, last, target), target: END}, start=WIDE)
    yield passes(rom, {8: 0, middle: 0, last: 0, target: 0}, left("finished", 4, target + 1, 16))
    # back to the first place, around and around; and to the byte before it
    first = 8 + BACK
    rom = filled({8: to(GO, 8, first), first: to(GO, first, 8)}, start=WIDE)
    yield passes(rom, {8: 0, first: 0}, left("budget", 1001, first, 16), 1001)
    rom = filled({8: to(GO, 8, first - 1), first - 1: to(GO, first - 1, 7)}, start=WIDE)
    yield fails(rom, left("refused 19", 1, first - 1, 16))
    # b?branch over as many noops as it can, taken and not
    for flag, steps in ((b"\xA5", 4), (ONE, FORTH - 3 + 4)):
        rom = filled({8: flag, 9: to(IF, 9, 9 + FORTH)}, 9 + FORTH + 2, WIDE)
        yield passes(rom, {8: 0, 9: 1, **level(12, len(rom))}, left("finished", steps, len(rom), 16))
    # an offset of 8 bits among the last bytes, forward and back; the flag for the first is 0, for the second 1
    rom = filled({MOST - 131: b"\xA5\x14\x7F"})
    heights = {**level(8, MOST - 130), MOST - 130: 1, **level(MOST - 128, MOST)}
    yield passes(rom, heights, left("finished", MOST - 131 - 8 + 2 + 2, MOST))
    rom = filled({MOST - 4: b"\xA6\x14\x81"})
    heights = {**level(8, MOST - 3), MOST - 3: 1, MOST - 1: 0}
    yield passes(rom, heights, left("finished", MOST - 4 - 8 + 3, MOST))


def one_body():
    """A body of 60,000 bytes, which goes up to 32 cells and down again, over and over, and a call of it."""
    wave = ONE * 32 + NOOP * 2000 + DROP * 32 + NOOP * 936
    body = (wave * 20)[:-1] + b"\xC2"
    assert len(body) == 60000
    rom = with_header(bytes.fromhex("B50800B7") + body + bytes.fromhex("080000"))
    heights = {8: 0, 12 + len(body): 0, 14 + len(body): 0}
    height = 0
    for k, token in enumerate(body):
        heights[12 + k] = height
        height += {ONE[0]: 1, DROP[0]: -1}.get(token, 0)
    numbers = "800:colon:0000000C"
    yield passes(rom, heights, left("finished", 1 + 1 + len(body) + 1, len(rom), numbers=numbers))
    # a budget that ends 50,000 tokens deep in it: the call comes back to where only 60,000 bytes lead
    deep = 50520
    cells = [1] * heights[12 + deep]
    yield passes(
        rom, heights, left("budget", 2 + deep, 12 + deep, data=cells, frames=f"{14 + len(body)}:0", numbers=numbers), 2 + deep
    )
    # the same without its C2: b(:) reads the body to the program's end, which cuts it off
    cut = with_header(bytes.fromhex("B50800B7") + body[:-1])
    yield fails(cut, left("refused 10", 0, 8))


APART = 230


def spread(head):
    """256 definitions over 60,000 bytes, each with noops behind it."""
    return b"".join(head(0x800 + k) + NOOP * APART for k in range(256))


def spread_heights(head, step):
    """0 at each definition, and at what lies behind its head."""
    heights = {}
    for place in range(8, 8 + 256 * step, step):
        heights.update({place: 0, **level(place + head, place + step)})
    return heights


def numbers():
    # variables: each takes four bytes of work memory, and its number gives the address
    variables = spread(lambda number: b"\xB5" + number.to_bytes(2, "big") + b"\xB9")
    step = 4 + APART
    assert 59000 < len(variables) < 61000
    told = " ".join(f"{0x800 + k:X}:variable:{0x20000000 + 4 * k:08X}" for k in range(256))
    rom = with_header(variables + bytes.fromhex("08FF00"))
    end = 8 + len(variables)
    heights = {**spread_heights(4, step), end: 0, end + 2: 1}
    steps = 256 * (1 + APART)
    yield passes(rom, heights, left("finished", steps + 2, len(rom), data=(0x200003FC,), numbers=told, work_place=1024))
    # a 257th number
    rom = with_header(variables + bytes.fromhex("B50900B900"))
    yield fails(rom, left("refused 13", steps, end, numbers=told, work_place=1024))
    # bodies with nothing in them, and a call of the last
    colons = spread(lambda number: b"\xB5" + number.to_bytes(2, "big") + b"\xB7\xC2")
    step = 5 + APART
    told = " ".join(f"{0x800 + k:X}:colon:{12 + k * step:08X}" for k in range(256))
    rom = with_header(colons + bytes.fromhex("08FF00"))
    end = 8 + len(colons)
    heights = {**spread_heights(4, step), end: 0, end + 2: 0}
    yield passes(rom, heights, left("finished", steps + 3, len(rom), numbers=told))


def last_bytes():
    """The ROM window ends at the length: its last byte and its last four can be fetched, and no byte behind them."""
    for fetch, address, bytes_there in ((0x71, 0x1000FFFF, 0x00), (0x6D, 0x1000FFFC, 0x7B7B7B00)):
        tokens = b"\x10" + address.to_bytes(4, "big") + bytes([fetch])
        yield passes(
            filled({8: tokens}),
            {8: 0, 13: 1, **level(14, MOST, 1)},
            left("finished", 2 + MOST - 14, MOST, data=(bytes_there,)),
        )
        tokens = b"\x10" + (address + 1).to_bytes(4, "big") + bytes([fetch])
        yield passes(filled({8: tokens}), {8: 0, 13: 1, **level(14, MOST, 1)}, left("refused 22", 1, 13, data=(address + 1,)))
    # a string that ends with the ROM: its address and its length, and a property that it is the value of
    name = text(b"v") + bytes.fromhex("0110") + END
    value = b"\x12\xFF" + bytes(range(255))
    at = MOST - len(value) - len(name)
    rom = filled({at: value + name})
    heights = {**level(8, at), at: 0, at + len(value): 2, at + len(value) + 3: 4, MOST - 1: 0}
    props = ("1 76 " + bytes(range(255)).hex().upper(),)
    yield passes(rom, heights, left("finished", at - 8 + 4, MOST, props=props, store=b"v" + bytes(range(255))))
    yield passes(rom, heights, left("budget", at - 8 + 1, at + len(value), data=(0x10000000 + at + 2, 255)), at - 8 + 1)
    # and one that the end cuts off
    rom = filled({MOST - 256: b"\x12\xFF" + bytes(254)}, ended=False)
    yield fails(rom, left("refused 10", MOST - 256 - 8, MOST - 256))


def cases():
    for part in (sizes, branches, one_body, numbers, last_bytes):
        yield from part()
