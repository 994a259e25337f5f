#!/usr/bin/env python3
"""The listing that each worked case and each case of tests/names.py, tests/long.py and tests/spread.py must have, for tests/host.c to
compare. First a line with the count of cases; then for each case a line with the ROM in hex ('-': no bytes) and the budget, the listing's
lines, and a line with a dot. It is put together here from what the case says of screen, run, steps, nodes and properties.

    python3 tests/listings.py       prints them
"""
import long
import names
import roms
import spread


def by_kind(lines):
    """A case's lines by their first word."""
    told = {}
    for line in lines:
        word, *rest = line.split(" ")
        told.setdefault(word, []).append(rest)
    return told


def shown(prop):
    """A property's line: its name, and its value behind it unless that is empty."""
    _, name, value = prop
    return bytes.fromhex(name).decode("ascii") + ("" if value == "-" else " " + value)


def ending(how):
    return {"finished": "done", "budget": "refused 28"}.get(how[0]) or " ".join(how)


def listing(told):
    verdict = told["screen"][0][0]
    if verdict != "0":
        return [f"refused {verdict}"]
    lines = ["screen pass"]
    for node, parent in enumerate(told["nodes"][0][1:]):
        lines.append(f"node {node} parent {parent}")
        lines += [shown(prop) for prop in told.get("prop", []) if prop[0] == str(node)]
    return lines + [f"steps {told['steps'][0][0]}", ending(told["run"][0])]


def main():
    cases = [*roms.worked_cases(), *names.cases(), *long.cases(), *spread.cases()]
    print(len(cases))
    for (rom, budget, *_), told in cases:
        lines = listing(by_kind(told))
        assert "." not in lines
        print(f"{roms.of_hex(rom).hex().upper() or '-'} {budget}", *lines, ".", sep="\n")


if __name__ == "__main__":
    main()
