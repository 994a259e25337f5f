"""ROMs for the tests: a program with a good header in front of it, its bytes laid apart, the tokens that write a property, what a run
leaves, line by line, and the worked cases, read once for all that run them.

A worked case starts with 'case HEXROM BUDGET [PATH ...]' ('-': no bytes) and ends with '.'; the lines between are what it must
give, the kind of each in its first word. They were worked out from documents 01 and 02 apart from the Rattle code. tests/cases.txt
has the cases as they stand with the newest request; tests/cases-long.txt those of its ROMs that are too long to be read;
tests/cases-kept.txt those of earlier requests that it has no more, and that hold as they did.

Where a byte stands often, how often may stand between two stars behind it, 'FD08007B*3*00' for FD08007B7B7B00; and a mark that places
without a gap between them have may stand once, '8-10:1' for 8:1 9:1 10:1.
"""
import itertools
import pathlib
import re
import zlib

NARROW, WIDE, TWO, FOUR = 0xFD, 0xF1, 0xF2, 0xF3
HERE = pathlib.Path(__file__).parent
CASES = (HERE / "cases.txt", HERE / "cases-long.txt", HERE / "cases-kept.txt")
# so many equal bytes in a row are worth their stars
OFTEN = 8


def with_header(program, start=NARROW):
    length = len(program) + 8
    return bytes([start, 8]) + (sum(program) % 65536).to_bytes(2, "big") + length.to_bytes(4, "big") + program


def words(line):
    """A program by its tokens with their data heights, '-' where one is not reached: its bytes, and the heights by place."""
    program, heights = b"", {}
    for word in line.split():
        token, height = word.split(":")
        if height != "-":
            heights[8 + len(program)] = int(height)
        program += bytes.fromhex(token)
    return program, heights


def spread_of(rom):
    """How far apart a ROM's FCode bytes lie: its first byte says so."""
    return {TWO: 2, FOUR: 4}.get(rom[0], 1) if rom else 1


def fcode_of(rom):
    """A ROM's FCode bytes: all of it, or every second or fourth byte."""
    return rom[:: spread_of(rom)]


def apart(fcode, gaps=None):
    """The ROM that has these FCode bytes, as far apart as the first of them says, and none behind the last. The gaps have some bytes over
    and over, or each of them that of the FCode byte before it, which makes a long ROM a short line."""
    spread = spread_of(fcode)
    size = spread * (len(fcode) - 1) + 1
    rom = bytearray(byte for byte in fcode for _ in range(spread))[:size]
    if gaps:
        rom[:] = (gaps * size)[:size]
    rom[::spread] = fcode
    return bytes(rom)


def text(content):
    return bytes([0x12, len(content)]) + content


def put(name, value):
    return text(value) + text(name) + bytes.fromhex("0110")


def in_hex(rom):
    """A ROM as a word, short where a byte stands often."""
    word = ""
    for byte, same in itertools.groupby(rom):
        count = len(list(same))
        word += f"{byte:02X}*{count}*" if count >= OFTEN else f"{byte:02X}" * count
    return word


def of_hex(word):
    """The bytes of such a word."""
    return bytes.fromhex(re.sub(r"(..)\*(\d+)\*", lambda found: found[1] * int(found[2]), word.replace("-", "")))


def marked(marks):
    """The line of marks, by the mark of each place that has one."""
    told = []
    for place in sorted(marks):
        if told and told[-1][1:] == (place - 1, marks[place]):
            told[-1] = (told[-1][0], place, marks[place])
        else:
            told.append((place, place, marks[place]))
    return " ".join(["marks", *(f"{first}:{mark}" if first == last else f"{first}-{last}:{mark}" for first, last, mark in told)])


def marks_of(line):
    """The marks that such a line tells, by place."""
    marks = {}
    for word in line.split(" ")[1:]:
        places, mark = word.split(":")
        first, _, last = places.partition("-")
        marks.update((place, int(mark)) for place in range(int(first), int(last or first) + 1))
    return marks


def kind(line):
    return line.split(" ")[0]


def worked_cases():
    """Each worked case: the words behind 'case', the ROM's first, and the lines that it must give."""
    asked, told = None, []
    for file in CASES:
        for line in file.read_text().splitlines():
            if kind(line) == "case":
                asked, told = line.split(" ")[1:], []
            elif line == ".":
                yield asked, told
            else:
                told.append(line)


def crc(content):
    return f"{zlib.crc32(content + bytes(16384 - len(content))):08X}"


def rows(told):
    """The node table, by the lines nodes and prop."""
    parents = next(line for line in told if line.startswith("nodes ")).split(" ")[2:]
    owners = [line.split(" ")[1] for line in told if line.startswith("prop ")]
    return " ".join(["rows", *(f"{parent}:{owners.count(str(node))}" for node, parent in enumerate(parents))])


def left(
    answer, steps, place, width=8, data=(), back=(), frames="", numbers="", nodes="1 0 0", props=(), work_place=0, work=b"", store=b""
):
    """The lines of a run."""
    lines = ["open 0", f"run {answer}", f"steps {steps}", f"place {place} width {width}"]
    lines.append(" ".join(["data", *(f"{cell:08X}" for cell in data)]))
    lines.append(" ".join(["return", *(f"{cell:08X}" for cell in back)]))
    lines.append(f"frames {frames}".rstrip())
    lines.append(f"numbers {numbers}".rstrip())
    lines.append(f"nodes {nodes}")
    lines += [f"prop {prop}" for prop in props]
    lines += [f"work {work_place} {crc(work)}", f"store {crc(store)}"]
    return lines + [rows(lines)]
