#!/usr/bin/env python3
"""What demand 3 rests on: of crate screen the rules and what follows from them alone (specs/*.antt, specs/Laws/Rules/ and proofs/Rules/),
and nothing of how heights are found. So the screener may change without crate promise. A module is named by its folder and its path:
specs.Rules is specs/Rules.antt, proofs.Rules.InForce is proofs/Rules/InForce.antt.

    python3 tests/rests.py            the modules of crate screen that each module of crate promise names, and whether all of them may be
    python3 tests/rests.py --check    the same, printed only where one may not

Four parts of crate promise join theorems to what the code computes, PastLength, Unspread and Witness by that the screen's promise allows
one answer, Table, with its cases and their proof, by computing. Demand 3 itself must not rest on any of those four.
"""
import pathlib
import re
import sys

CRATES = pathlib.Path(__file__).resolve().parent.parent / "crates"
RULES = re.compile(r"(specs\.\w+|(?:specs\.Laws|proofs)\.Rules\.\w+)$")
JOINTS = {"proofs.PastLength", "proofs.Unspread", "proofs.Witness", "proofs.Table", "specs.Laws.Table"}
PROOF = "proofs.Demand3"
USED = re.compile(r"^use Rattle\.(promise|screen)\.((?:specs|proofs)\.[\w.]+?)(?:\.\{| as |$)", re.M)
# of proofs/ the lemmas, and not what answers the goals of a function
ANSWERS = {"Answers", "Invariants"}


def named(crate, module):
    """The modules of the two crates that a module names; what the code declares is no module of theirs."""
    text = (CRATES / crate / (module.replace(".", "/") + ".antt")).read_text()
    return {found for found in USED.findall(text) if not found[1].startswith("specs.declared")}


def under(crate, module):
    """Those modules, and all that they name in turn."""
    seen, left = set(), [(crate, module)]
    while left:
        for found in named(*left.pop()) - seen:
            seen.add(found)
            left.append(found)
    return seen


def modules(crate):
    """The modules of a crate's specs and the lemmas of its proofs, contents pages left out."""
    paths = sorted(path for folder in ("specs", "proofs") for path in (CRATES / crate / folder).glob("**/*.antt"))
    paths = [path for path in paths if path.stem not in {"Lib", "Laws", "Joints"} | ANSWERS and not path.with_suffix("").is_dir()]
    return [".".join(path.relative_to(CRATES / crate).with_suffix("").parts) for path in paths]


def main():
    wrong = []
    for module in modules("promise"):
        direct = {name for crate, name in named("promise", module) if crate == "screen"}
        if "--check" not in sys.argv:
            print(f"{module:20} {' '.join(sorted(direct)) or '-'}")
        if module not in JOINTS:
            wrong += [f"{module} names {name} of crate screen" for name in sorted(direct) if not RULES.match(name)]
    whole = under("promise", PROOF)
    wrong += [f"{PROOF} rests on {name} of crate screen" for crate, name in sorted(whole) if crate == "screen" and not RULES.match(name)]
    wrong += [f"{PROOF} rests on {name}, which joins it to the code" for name in sorted(JOINTS) if ("promise", name) in whole]
    rules = {name for name in modules("screen") if RULES.match(name)}
    for module in sorted(rules):
        found = {name for crate, name in named("screen", module) if not RULES.match(name)}
        wrong += [f"{module} of crate screen names {name}" for name in sorted(found)]
    if not {"specs.Effect", "specs.Reach", "specs.Rules", "specs.Promise"} <= rules & {name for crate, name in whole if crate == "screen"}:
        wrong.append(f"{PROOF} does not rest on all of the rules")
    for line in wrong:
        print(f"tests/rests.py: {line}")
    return 1 if wrong else 0


if __name__ == "__main__":
    sys.exit(main())
