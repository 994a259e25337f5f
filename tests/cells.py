#!/usr/bin/env python3
"""What crates/cells_vectors must print: the arithmetic and comparison tokens of documents 01 and 02, by ordinary integers.

    python3 tests/cells.py           prints the lines
    python3 tests/cells.py --check   compares them with crates/cells_vectors/stdout, and exits 1 where they differ
"""
import itertools
import operator
import pathlib
import sys

STORED = pathlib.Path(__file__).parent.parent / "crates" / "cells_vectors" / "stdout"
CELLS = [0, 1, 0x7FFFFFFF, 0x80000000, 0xFFFFFFFF]
COUNTS = CELLS + [31, 32, 33]


def signed(cell):
    """A cell in two's complement."""
    return int.from_bytes(cell.to_bytes(4, "big"), "big", signed=True)


def wrapped(number):
    """The cell that a number leaves, whatever its size or sign."""
    return number & 0xFFFFFFFF


def true(said):
    return 0xFFFFFFFF if said else 0


def on_signed(compare):
    return lambda *cells: true(compare(*map(signed, cells)))


def on_unsigned(compare):
    return lambda *cells: true(compare(*cells))


def left(cell, count):
    return wrapped(cell << count) if count < 32 else 0


def right(cell, count):
    return cell >> count if count < 32 else 0


def right_with_sign(cell, count):
    if count < 32:
        return wrapped(signed(cell) >> count)
    return true(signed(cell) < 0)


def within(n, low, high):
    """Whether n is met on the way up from low, before high; the way leads from FFFFFFFF on to 0. No difference is taken here."""
    return low <= n < high if low <= high else low <= n or n < high


ONE = {
    0x26: lambda a: a ^ 0xFFFFFFFF,
    0x2C: lambda a: wrapped(-signed(a)),
    0x2D: lambda a: wrapped(abs(signed(a))),
    0x34: on_signed(lambda n: n == 0),
    0x35: on_signed(lambda n: n != 0),
    0x36: on_signed(lambda n: n < 0),
    0x37: on_signed(lambda n: n <= 0),
    0x38: on_signed(lambda n: n > 0),
    0x39: on_signed(lambda n: n >= 0),
    0x57: lambda a: wrapped(signed(a) >> 1),
    0x58: lambda a: a >> 1,
    0x59: lambda a: wrapped(a << 1),
}
TWO = {
    0x1E: lambda a, b: wrapped(signed(a) + signed(b)),
    0x1F: lambda a, b: wrapped(signed(a) - signed(b)),
    0x20: lambda a, b: wrapped(signed(a) * signed(b)),
    0x23: operator.and_,
    0x24: operator.or_,
    0x25: operator.xor,
    0x2E: lambda a, b: min(a, b, key=signed),
    0x2F: lambda a, b: max(a, b, key=signed),
    0x3A: on_signed(operator.lt),
    0x3B: on_signed(operator.gt),
    0x3C: on_signed(operator.eq),
    0x3D: on_signed(operator.ne),
    0x3E: on_unsigned(operator.gt),
    0x3F: on_unsigned(operator.le),
    0x40: on_unsigned(operator.lt),
    0x41: on_unsigned(operator.ge),
    0x42: on_signed(operator.ge),
    0x43: on_signed(operator.le),
}
SHIFT = {0x27: left, 0x28: right, 0x29: right_with_sign}
THREE = {
    0x44: on_signed(lambda n, low, high: low <= n <= high),
    0x45: on_unsigned(within),
}


def parts(a, b):
    """2B u/mod, the remainder under the quotient."""
    if b == 0:
        return ["zero"]
    quotient, remainder = divmod(a, b)
    return [remainder, quotient]


def rows():
    """Each token's number, the cells it takes, and what it gives."""
    for tokens, operands in (
        (ONE, [CELLS]),
        (TWO, [CELLS, CELLS]),
        (SHIFT, [CELLS, COUNTS]),
        (THREE, [CELLS, CELLS, CELLS]),
    ):
        for token, meaning in tokens.items():
            for cells in itertools.product(*operands):
                yield token, cells, [meaning(*cells)]
    for cells in itertools.product(CELLS, CELLS):
        yield 0x2B, cells, parts(*cells)


def shown(item):
    return item if isinstance(item, str) else f"{item:08X}"


def expected():
    by_token = sorted(rows(), key=lambda row: row[0])
    return "".join(" ".join([f"{token:02X}", *map(shown, [*cells, *given])]) + "\n" for token, cells, given in by_token)


def main():
    if sys.argv[1:] != ["--check"]:
        sys.stdout.write(expected())
        return 0
    stored = STORED.read_text().split("\n")
    wanted = expected().split("\n")
    if stored == wanted:
        print(f"{len(wanted) - 1} lines as expected")
        return 0
    for number, (found, meant) in enumerate(itertools.zip_longest(stored, wanted, fillvalue="no line"), 1):
        if found != meant:
            print(f"line {number}: stored: {found}; expected: {meant}")
    return 1


sys.exit(main())
