#!/bin/sh
# Runs node_rows, the node table in a lent slice of row structs, by a program that is not proved and stands in no crate: it is written
# below, put beside a copy of the crates, and run by rt try, on the interpreter and compiled with checks. It lends the first rows of 33 that
# all hold 9, and says what node_rows answers and what all 33 hold then. What it must say is worked out here, by hand.
set -eu
cd "$(dirname "$0")/.."
room=$(mktemp -d)
trap 'rm -rf "$room"' EXIT
tar -cf - --exclude='crates/*/out' crates crates.txt | tar -xf - -C "$room"
echo 'rows: rom tree' >>"$room/crates.txt"
mkdir -p "$room/crates/rows/src"

cat >"$room/crates/rows/src/main.rt" <<'END'
#![tactic(auto)]

use rom::refusal_in;
use std::io;
use tree::Row;
use tree::Tree;
use tree::close_child;
use tree::fresh_tree;
use tree::node_rows;
use tree::open_child;
use tree::put_in;
use tree::tail_of;

// A tree's name, how many rows are lent, the answer, and the 33 rows.
fn show(rt: &impl Print, name: &str, tree: Tree, size: usize) -> io::Result<()> {
    let mut rows = [Row { parent: 9, count: 9 }; 33];
    let answer = refusal_in(node_rows(tree, &mut rows[..size]));
    print!(rt; "{name} {size}: {answer}")?;
    for row in rows {
        print!(rt; " {}:{}", row.parent, row.count)?;
    }
    println!(rt; "")
}

// The tree with a property of a node.
fn put(store: &mut [u8], tree: Tree, node: u32, name: &[u8], value: &[u8], null: bool) -> Tree {
    let mut owners = tree.owners;
    let mut name_sizes = tree.name_sizes;
    let mut value_sizes = tree.value_sizes;
    let tail = tail_of(&name_sizes, &value_sizes, tree.held);
    let kept = put_in(
        store,
        &mut owners,
        &mut name_sizes,
        &mut value_sizes,
        tree.held,
        tail,
        node,
        name,
        value,
        null,
    );
    let mut t = tree;
    t.owners = owners;
    t.name_sizes = name_sizes;
    t.value_sizes = value_sizes;
    t.held = kept.held;
    t
}

// The tree with a child of a node: the youngest node then.
fn open(tree: Tree, node: u32) -> Tree {
    let mut parents = tree.parents;
    let opened = open_child(&mut parents, tree.nodes, node);
    let mut t = tree;
    t.parents = parents;
    t.nodes = opened.nodes;
    t
}

// The node that is active once this one is closed, in a program that started at node 1.
fn close(tree: Tree, node: u32) -> u32 {
    let parents = tree.parents;
    let closed = close_child(&parents, 1, node);
    closed.active
}

fn main(rt: HostRuntime) -> io::Result<()> {
    let fresh = fresh_tree();
    show(&rt, "fresh", fresh, 0)?;
    show(&rt, "fresh", fresh, 31)?;
    show(&rt, "fresh", fresh, 32)?;
    show(&rt, "fresh", fresh, 33)?;

    let mut damaged = fresh;
    damaged.nodes = 1;
    show(&rt, "damaged", damaged, 31)?;
    show(&rt, "damaged", damaged, 32)?;
    show(&rt, "damaged", damaged, 33)?;

    // what lies past the counts is not judged, and is in no row
    let mut stale = fresh;
    stale.parents[2] = 1;
    stale.parents[31] = 1;
    stale.owners[0] = 1;
    show(&rt, "stale", stale, 32)?;

    // node 1 with two properties, its children 2 with one and 3 with none
    let mut store = [0u8; 16384];
    let one = put(&mut store, fresh, 1, b"a", b"1", false);
    let two = put(&mut store, one, 1, b"b", b"", true);
    let three = put(&mut store, open(two, 1), 2, b"a", b"2", false);
    let small = open(three, close(three, 2));
    show(&rt, "small", small, 32)?;

    // below node 3 a child, a child's child and so on, until there are 32 nodes; the last has a property
    let mut full = small;
    while full.nodes < 32 {
        full = open(full, full.nodes as u32 - 1);
    }
    let last = put(&mut store, full, 31, b"a", b"3", false);
    show(&rt, "full", last, 32)?;
    show(&rt, "full", last, 31)
}
END

# rows_of N ROW: so many rows that hold this
rows_of() {
    n=$1
    while [ "$n" -gt 0 ]; do
        printf ' %s' "$2"
        n=$((n - 1))
    done
}

old=$(rows_of 33 9:9)
cat >"$room/must" <<END
fresh 0: 6$old
fresh 31: 6$old
fresh 32: 0$(rows_of 32 0:0) 9:9
fresh 33: 6$old
damaged 31: 6$old
damaged 32: 7$old
damaged 33: 6$old
stale 32: 0$(rows_of 32 0:0) 9:9
small 32: 0 0:0 0:2 1:1 1:0$(rows_of 28 0:0) 9:9
full 32: 0 0:0 0:2 1:1 1:0$(for k in $(seq 4 30); do printf ' %s:0' $((k - 1)); done) 30:1 9:9
full 31: 6$old
END
if ! (cd "$room/crates/rows" && rt try) >"$room/said" 2>"$room/log"; then
    cat "$room/said" "$room/log" >&2
    exit 1
fi
if ! diff "$room/must" "$room/said" >&2; then
    echo "tests/rows.sh: the program says something else than it must" >&2
    exit 1
fi
echo "tests/rows.sh: $(wc -l <"$room/must") lines as expected, $(tail -n 1 "$room/log")"
