"""The input of a program that runs worked cases and what it must print: written into its crate, or with --check compared with what is
there."""
import sys

INPUT_MOST = 131072


def files(cases):
    """From each case's line of input and the lines that it must give."""
    asked, told = [], []
    for line, lines in cases:
        asked.append(line)
        told += lines
    return {"stdin": "\n".join(asked) + "\n", "stdout": "\n".join(told) + "\n"}


def main(crate, cases):
    good = True
    for name, text in files(cases).items():
        path = crate / name
        if name == "stdin" and len(text) > INPUT_MOST:
            print(f"{len(text)} bytes of input, and {INPUT_MOST} are read")
            return 1
        if "--check" not in sys.argv:
            path.write_text(text)
        elif path.read_text() != text:
            print(f"crates/{crate.name}/{name} is not what tests/{crate.name}.py makes")
            good = False
        else:
            print(f"crates/{crate.name}/{name}: {len(text.splitlines())} lines as expected")
    return 0 if good else 1
