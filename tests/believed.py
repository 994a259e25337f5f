#!/usr/bin/env python3
"""What has to be believed, and that it stands apart. In each crate specs/*.antt has the definitions and statements that the promise of a
public call or the statement of a theorem goes by; specs/Joints/ what the crates of the house agree on among themselves; specs/Laws/ what
is only proved, as are the lemmas of proofs/.

    python3 tests/believed.py            the lines of each crate, and whether all stands where it should
    python3 tests/believed.py --check    the same, and that README.md has these lines
    python3 tests/believed.py --write    the same, and README.md has these lines from then on

It fails where
- the `ensures` of a public function cites a module of Laws or of proofs/;
- that of a call (JOINTS lists the public functions that are none) cites a module of Joints, or JOINTS lists what is no public function;
- a ghost member of a trait, or an `ensures` of who has the trait, cites a module of Joints, Laws or proofs/;
- a module that has to be believed names one of Laws, Joints or proofs/, or one of Joints names one of Laws or proofs/;
- a theorem stands among what has to be believed;
- two definitions of the house have one name;
- a contents page lacks a line of comment for a module.
"""
import pathlib
import re
import sys

ROOT = pathlib.Path(__file__).resolve().parent.parent
CRATES = ROOT / "crates"
# public so that another crate of the house may call them, and no calls to make: they go by a state, a tree or a ROM that is taken apart
JOINTS = {
    "acts": {"cold_token", "fill_tables"},
    "reckon": {"fast"},
    "state": {"stop", "go", "core_of", "refused", "going", "entry", "wide_at", "push", "pop", "base", "call", "leave"},
    "tokens": {"first_codes", "quick_at", "glance_from", "glance_at"},
    "tree": {"tail_of", "put_in", "open_child", "close_child"},
}
USED = re.compile(r"^(?:ghost )?use Rattle\.(\w+)\.((?:specs|proofs)\.[\w.]+?)(?:\.\{(.*?)\}| as \w+)?;?$", re.M | re.S)
DEFINED = re.compile(r"^(?:abbrev pub|unfoldable pub|pub record|pub data) ([^\s:({]+)", re.M)
PROVED = re.compile(r"^(?:pub )?([^\s:({]+)(?: \{[^}]*\})? :", re.M)
# pub use FILE::NAME; or pub use FILE::{NAME, NAME};
EXPORTED = re.compile(r"^pub use (\w+)::(?:\{([^}]*)\}|(\w+));", re.M)
FUNCTION = re.compile(r'^pub (?:extern "C" )?fn (\w+)(.*?)^\{', re.M | re.S)
# in an impl
METHOD = re.compile(r"^    pub fn (\w+)(.*?)^    \{", re.M | re.S)
# a trait; who has it; in either, a function with its contract, and a ghost member with its type and what it is
TRAIT = re.compile(r"^pub trait (\w+)(.*?)^\}", re.M | re.S)
IMPL = re.compile(r"^impl(?:<[^\n]*>)? (\w+)(?:<[^\n]*>)? for ([^\n]*) \{$(.*?)^\}", re.M | re.S)
ASKED = re.compile(r"^    fn (\w+)(.*?)(?:;$|\{$)", re.M | re.S)
SAID = re.compile(r"^    ghost (\w+)(.*?);$", re.M | re.S)
CONTENTS = {"Lib", "Laws", "Joints"}
# in proofs/, what answers the goals of a function: no lemmas
ANSWERS = {"Answers", "Invariants", "Lib"}
# in README.md
TABLE = re.compile(r"^\| crate \| to be believed .*\n(?:\|.*\n)*", re.M)


def tier(module):
    """believed, Joints or Laws, by a module's path; what a crate of the kit has is none of these"""
    folder, first = module.split(".")[:2]
    return "Laws" if folder == "proofs" else first if first in ("Joints", "Laws") else "believed"


def modules():
    """Every module of specs/ with its text, contents pages left out: by crate and path."""
    found = {}
    for path in sorted(CRATES.glob("*/specs/**/*.antt")):
        crate, _, *parts = path.relative_to(CRATES).with_suffix("").parts
        if not path.with_suffix("").is_dir() and parts[-1] not in CONTENTS:
            found[crate, ".".join(["specs", *parts])] = path.read_text()
    return found


def lemmas(crate):
    """How many lines the lemmas of proofs/ have."""
    paths = (CRATES / crate / "proofs").glob("**/*.antt")
    return sum(path.read_text().count("\n") for path in paths if path.stem not in ANSWERS and not path.with_suffix("").is_dir())


def public(crate):
    """The public functions of a crate, those that its lib.rt has or names, each with its contract and the text of its file."""
    library = CRATES / crate / "src" / "lib.rt"
    if not library.exists():
        return
    found = EXPORTED.findall(library.read_text())
    named = {(file, name.strip()) for file, names, one in found for name in (names or one).split(",")}
    opened = set(re.findall(r"^pub mod (\w+)", library.read_text(), re.M)) | {"lib"}
    for path in sorted((CRATES / crate / "src").glob("*.rt")):
        text = path.read_text()
        for name, contract in FUNCTION.findall(text):
            if path.stem in opened or (path.stem, name) in named:
                yield name, contract, text
        # those of a type that is named
        if path.stem in opened or any(file == path.stem and name[:1].isupper() for file, name in named):
            for name, contract in METHOD.findall(text):
                yield name, contract, text
        # and those of a trait
        for trait, body in TRAIT.findall(text):
            if path.stem in opened or (path.stem, trait) in named:
                for name, contract in ASKED.findall(body):
                    yield name, contract, text


def said(crate):
    """What promises go by in a trait and in who has it, ghost members and contracts: each with its place and the text of its file."""
    for path in sorted((CRATES / crate / "src").glob("*.rt")):
        text = path.read_text()
        traits = [(f"trait {trait}", body, []) for trait, body in TRAIT.findall(text)]
        impls = [(f"{trait} for {who}", body, ASKED.findall(body)) for trait, who, body in IMPL.findall(text)]
        for place, body, functions in traits + impls:
            for name, contract in functions:
                yield f"{name} of {place}", contract, text
            for name, told in SAID.findall(body):
                yield f"{name} of {place}", f"ensures {told}", text


def cited(contract, text):
    """The modules of specs/ whose names an `ensures` cites."""
    ensures = contract[contract.find("ensures"):] if "ensures" in contract else ""
    words = set(re.findall(r"[^\s(){}\[\];,.⌜⌝]+", ensures))
    for crate, module, names in USED.findall(text):
        if module.startswith("specs.declared") or not (CRATES / crate).is_dir():
            continue
        for name in names.split(","):
            if name.split(" as ")[-1].strip() in words:
                yield crate, module


def contracts(wrong):
    """How many public functions there are; what is wrong with their contracts is told."""
    count = 0
    unseen = {(crate, name) for crate, joints in JOINTS.items() for name in joints}
    for crate in sorted(path.name for path in CRATES.iterdir()):
        for name, contract, text in public(crate):
            count += 1
            unseen.discard((crate, name))
            joint = name in JOINTS.get(crate, ())
            for where, module in sorted(set(cited(contract, text))):
                if tier(module) == "Laws" or (tier(module) == "Joints" and not joint):
                    wrong.append(f"the promise of {name} in crate {crate} cites {module} of crate {where}")
        for name, contract, text in said(crate):
            for where, module in sorted(set(cited(contract, text))):
                if tier(module) != "believed":
                    wrong.append(f"{name} in crate {crate} cites {module} of crate {where}")
    wrong.extend(f"crate {crate} has no public function {name}, and JOINTS lists it" for crate, name in sorted(unseen))
    return count


def apart(found, wrong):
    """What has to be believed names nothing that has not, and proves nothing."""
    below = {"believed": {"Joints", "Laws"}, "Joints": {"Laws"}, "Laws": set()}
    for (crate, module), text in found.items():
        for where, named, _ in USED.findall(text):
            if (CRATES / where).is_dir() and tier(named) in below[tier(module)] and not named.startswith("specs.declared"):
                wrong.append(f"{module} of crate {crate} names {named} of crate {where}")
        if tier(module) == "believed":
            for name in PROVED.findall(text):
                wrong.append(f"{module} of crate {crate} proves {name}")


def names(found, wrong):
    """One name, one meaning."""
    owner = {}
    for (crate, module), text in found.items():
        for name in DEFINED.findall(text):
            if owner.setdefault(name, (crate, module)) != (crate, module):
                wrong.append(f"{name} is defined in {module} of crate {crate} and in {owner[name][1]} of crate {owner[name][0]}")


def contents(wrong):
    """A line of comment for each module."""
    for path in sorted(CRATES.glob("*/specs/**/*.antt")):
        lines = path.read_text().splitlines()
        for before, line in zip([""] + lines, lines):
            if line.startswith("pub mod ") and not before.startswith("-- "):
                wrong.append(f"{path.relative_to(ROOT)} says nothing of {line[8:]}")


def table(found):
    """Lines of each crate, as README.md has them."""
    rows = ["| crate | to be believed | joints | only proved |", "|---|---|---|---|"]
    total = {"believed": 0, "Joints": 0, "Laws": 0}
    for crate in sorted({crate for crate, _ in found}):
        sums = dict.fromkeys(total, 0)
        for (owner, module), text in found.items():
            if owner == crate:
                sums[tier(module)] += text.count("\n")
        sums["Laws"] += lemmas(crate)
        for part, lines in sums.items():
            total[part] += lines
        rows.append(f"| {crate} | " + " | ".join(str(sums[part]) for part in total) + " |")
    rows.append("| all | " + " | ".join(str(total[part]) for part in total) + " |")
    return rows


def main():
    wrong = []
    found = modules()
    count = contracts(wrong)
    apart(found, wrong)
    names(found, wrong)
    contents(wrong)
    rows = "\n".join(table(found))
    print(rows)
    page = ROOT / "README.md"
    text = page.read_text()
    if "--check" in sys.argv and rows not in text:
        wrong.append("README.md has another table of lines than this")
    if "--write" in sys.argv:
        page.write_text(TABLE.sub(lambda _: rows + "\n", text, count=1))
    for line in wrong:
        print(f"tests/believed.py: {line}")
    print(f"{count} public functions, {sum(len(names) for names in JOINTS.values())} of them joints; {len(wrong)} things wrong")
    return 1 if wrong else 0


if __name__ == "__main__":
    sys.exit(main())
