#!/bin/sh
# Runs node_rows_in, the node table of a whole state in a lent slice of row structs, as tests/rows.sh runs the tree's node_rows, and like it
# by a program that is not proved and stands in no crate. It lends the first rows of 33 that all hold 9, and says what node_rows_in answers
# and what all 33 hold then. What it must say is worked out here, by hand.
set -eu
cd "$(dirname "$0")/.."
room=$(mktemp -d)
trap 'rm -rf "$room"' EXIT
tar -cf - --exclude='crates/*/out' crates crates.txt | tar -xf - -C "$room"
echo 'rows: rom tree state' >>"$room/crates.txt"
mkdir -p "$room/crates/rows/src"

cat >"$room/crates/rows/src/main.rt" <<'END'
#![tactic(auto)]

use std::io;
use rom::refusal_in;
use state::State;
use state::node_rows_in;
use state::open;
use tree::Row;

// A state's name, how many rows are lent, the answer, and the 33 rows.
fn show(rt: &impl Print, name: &str, state: State, size: usize) -> io::Result<()> {
    let mut rows = [Row { parent: 9, count: 9 }; 33];
    let answer = refusal_in(node_rows_in(state, &mut rows[..size]));
    print!(rt; "{name} {size}: {answer}")?;
    for row in rows {
        print!(rt; " {}:{}", row.parent, row.count)?;
    }
    println!(rt; "")
}

fn main(rt: HostRuntime) -> io::Result<()> {
    let rom = b"\xFD\x08\x00\x00\x00\x00\x00\x09\x00";
    let mut work = [0u8; 16384];
    let mut store = [0u8; 16384];
    let opened = open(rom, &mut work, &mut store);
    let fresh = opened.state;
    show(&rt, "fresh", fresh, 31)?;
    show(&rt, "fresh", fresh, 32)?;
    show(&rt, "fresh", fresh, 33)?;

    // damaged where the tree knows nothing of it: 65 cells on the data stack
    let mut high = fresh;
    high.stack.height = 65;
    show(&rt, "high", high, 31)?;
    show(&rt, "high", high, 32)?;

    // and in the tree
    let mut alone = fresh;
    alone.tree.nodes = 1;
    show(&rt, "alone", alone, 32)?;

    // the same program with its bytes two apart; and cut off behind its header, so that the state is all zero and has no node
    let apart = b"\xF2\x12\x08\x12\x00\x12\x00\x12\x00\x12\x00\x12\x00\x12\x09\x12\x00";
    let spread = open(apart, &mut work, &mut store);
    show(&rt, "spread", spread.state, 32)?;
    let cut = open(&apart[..16], &mut work, &mut store);
    show(&rt, "cut", cut.state, 32)
}
END

# rows_of N ROW: so many rows that hold this
rows_of() {
    n=$1
    while [ "$n" -gt 0 ]; do
        printf ' %s' "$2"
        n=$((n - 1))
    done
}

old=$(rows_of 33 9:9)
cat >"$room/must" <<END
fresh 31: 6$old
fresh 32: 0$(rows_of 32 0:0) 9:9
fresh 33: 6$old
high 31: 6$old
high 32: 7$old
alone 32: 7$old
spread 32: 0$(rows_of 32 0:0) 9:9
cut 32: 7$old
END
if ! (cd "$room/crates/rows" && rt try) >"$room/said" 2>"$room/log"; then
    cat "$room/said" "$room/log" >&2
    exit 1
fi
if ! diff "$room/must" "$room/said" >&2; then
    echo "tests/state-rows.sh: the program says something else than it must" >&2
    exit 1
fi
echo "tests/state-rows.sh: $(wc -l <"$room/must") lines as expected, $(tail -n 1 "$room/log")"
