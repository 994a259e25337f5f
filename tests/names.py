"""Property names byte by byte, as cases in the form of the worked ones: every byte from 20 to 7F as a name of one byte, and in the
first and in the last place of a name of 31; and names of 0 and of 32 bytes. What 26 refuses is written here in the words of
documents 01 and 02 and of IEEE 1275: a length that is not 1 to 31, a byte outside 21 to 7E, an upper-case letter, and / \\ : [ ] @.
Every name that is refused has a ROM of its own; those that are not are written one behind the other, and stand in the store.
"""
import string

from roms import in_hex, left, put, with_header

PRINTED = range(0x21, 0x7F)
REFUSED = (string.ascii_uppercase + "/\\:[]@").encode("ascii")
TRIED = range(0x20, 0x80)
BUDGET = 1000
# so many names of 31 bytes in one ROM
TOGETHER = 50

# a name around one byte, for each place in which it is tried
AROUND = (
    lambda byte: bytes([byte]),
    lambda byte: bytes([byte]) + b"a" * 30,
    lambda byte: b"z" * 30 + bytes([byte]),
)


def is_good(byte):
    return byte in PRINTED and byte not in REFUSED


def refused(name, byte):
    """A name alone. Value and name, each an address in the ROM and a length, are on the stack when property refuses it."""
    rom = with_header(put(name, bytes([byte])) + b"\0")
    data = (0x1000000A, 1, 0x1000000D, len(name))
    return rom, left("refused 26", 2, len(rom) - 3, data=data)


def kept(names):
    """Names with the byte that each is tried for as its value."""
    rom = with_header(b"".join(put(name, bytes([byte])) for name, byte in names) + b"\0")
    props = [f"1 {name.hex().upper()} {byte:02X}" for name, byte in names]
    store = b"".join(name + bytes([byte]) for name, byte in names)
    return rom, left("finished", 3 * len(names) + 1, len(rom), props=props, store=store)


def roms():
    for around in AROUND:
        names = [(around(byte), byte) for byte in TRIED]
        good = [(name, byte) for name, byte in names if is_good(byte)]
        yield from (kept(good[at : at + TOGETHER]) for at in range(0, len(good), TOGETHER))
        yield from (refused(name, byte) for name, byte in names if not is_good(byte))
    for length in (0, 32):
        yield refused(b"a" * length, 0x61)


def cases():
    """Each as the words behind 'case' and the lines that it must give. Screening asks for no name."""
    for rom, told in roms():
        yield [in_hex(rom), str(BUDGET)], ["screen 0", *told]
