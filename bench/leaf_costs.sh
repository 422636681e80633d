#!/bin/sh
# Machine instructions that a call of each leaf costs, with the loop around it, as the slope between two counts of calls. Each
# file of leaf_costs/ has the operations of one leaf: its first two lines name the crates that it takes and the operations, and its
# `run` makes so many calls of one. A program is made of them in a folder of its own, and proved as any other. It runs outside the
# gate, and is skipped where valgrind or rt is missing. Words choose leaves; without any, all are run.
set -eu
here=$(cd "$(dirname "$0")" && pwd)
top=$here/..
for tool in valgrind rt; do
    if ! command -v "$tool" >/dev/null 2>&1; then
        echo "leaf_costs.sh: skipped, since $tool is missing"
        exit 0
    fi
done
[ $# -gt 0 ] || set -- $(cd "$here/leaf_costs" && ls *.txt | sed 's/\.txt$//')
folder=${LEAF_COSTS_FOLDER:-$(mktemp -d)}
program=$folder/crates/leaf_costs
mkdir -p "$program/src"

# the crates that these stand on in this repository, by crates.txt
below() {
    awk -v wanted="$*" '
        { sub(/#.*/, "") }
        /:/ { split($0, halves, ":"); split(halves[1], words, " "); needs[words[1]] = halves[2]; line[words[1]] = $0 }
        function visit(name, names, count, place) {
            if (!(name in needs) || name in seen) return
            seen[name] = 1
            count = split(needs[name], names, " ")
            for (place = 1; place <= count; place++) visit(names[place])
            print line[name]
        }
        END { count = split(wanted, names, " "); for (place = 1; place <= count; place++) visit(names[place]) }
    ' "$top/crates.txt"
}

# the program: one module for each leaf
crates=
: >"$folder/modules.txt"
: >"$folder/arms.txt"
for leaf; do
    source=$here/leaf_costs/$leaf.txt
    crates="$crates $(sed -n 's,^//! crates: ,,p' "$source")"
    sed '/^\/\/! /d' "$source" >"$program/src/on_$leaf.rt"
    echo "mod on_$leaf;" >>"$folder/modules.txt"
    echo "        \"$leaf\" => on_$leaf::run(alloc, operation, count)," >>"$folder/arms.txt"
done
crates=$(printf '%s\n' $crates | sort -u | tr '\n' ' ')
{
    echo '//! Calls a leaf so many times.'
    echo '#![tactic(auto)]'
    cat "$folder/modules.txt"
    cat <<'END'

use anyhow::Context;
use std::alloc::Global;

/// What a call gives, or why there is nothing.
pub type Answer<T> = anyhow::Result<T>;

/// So many turns of one expression, and the sum of what they give.
macro_rules! repeated {
    ($count:expr, $turn:ident => $value:expr) => {{
        let mut all = 0u32;
        for $turn in 0..$count {
            all = all.wrapping_add($value);
        }
        Ok(all)
    }};
}
pub(crate) use repeated;

fn run(alloc: Global, leaf: &str, operation: &str, count: u32) -> Answer<u32> {
    match leaf {
END
    cat "$folder/arms.txt"
    cat <<'END'
        _ => anyhow::bail!("no such leaf"),
    }
}

fn main(rt: HostRuntime) -> Answer<()> {
    let mut words = std::env::args(&rt)?;
    words.next();
    let leaf = words.next().context("which leaf?")?;
    let operation = words.next().context("which operation?")?;
    let count = words.next().context("how often?")?.parse::<u32>()?;
    let answer = run(rt.alloc(), &leaf, &operation, count)?;
    println!(rt; "{answer}")?;
    Ok(())
}
END
} >"$program/src/main.rt"
{
    below $crates
    echo "leaf_costs: anyhow $crates"
} >"$folder/crates.txt"
for crate in $(below $crates | sed 's/:.*//'); do
    mkdir -p "$folder/crates/$crate"
    for part in src specs proofs; do
        rm -rf "$folder/crates/$crate/$part"
        [ ! -d "$top/crates/$crate/$part" ] || cp -r "$top/crates/$crate/$part" "$folder/crates/$crate"
    done
done

cd "$program"
printf '%s\n' 0 >stdout
rt run -- "$1" nothing 0 >build.log 2>&1 || {
    tail -40 build.log
    exit 1
}
counted() {
    valgrind --tool=callgrind --callgrind-out-file=counts.out out/leaf_costs "$1" "$2" "$3" 2>valgrind.txt >/dev/null
    sed -n 's/.*Collected : \([0-9]*\).*/\1/p' valgrind.txt
}
for leaf; do
    for operation in $(sed -n 's,^//! operations: ,,p' "$here/leaf_costs/$leaf.txt"); do
        few=$(counted "$leaf" "$operation" 10000)
        many=$(counted "$leaf" "$operation" 30000)
        echo "$leaf $operation: $(((many - few) / 20000)) instructions a call"
    done
done
