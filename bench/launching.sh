#!/bin/sh
# Tries the launcher `fezhalon` with a stand-in for `rt`, so that nothing is proved: over five crates with nothing in them,
# and a program that prints its words. Prints `ok NAME` or `WRONG NAME` of each case, and ends with 0 where all are ok.
set -eu
top=$(CDPATH='' cd -- "$(dirname -- "$0")/.." && pwd)
made=$(mktemp -d)
trap 'rm -rf "$made"' EXIT
copy="$made/a folder" wrong=0
mkdir -p "$copy/examples" "$made/bin"
cp "$top/fezhalon" "$copy"
cat >"$copy/crates.txt" <<'CRATES'
# The program stands first, so that the order has to be found.
ti_host: class_tree ti_port itoa
class_tree: ti_ids sqlite_items # and not the next: type_rules
type_rules: class_tree
ti_port:
ti_ids:
CRATES
for crate in ti_host class_tree type_rules ti_port ti_ids; do
    mkdir -p "$copy/crates/$crate/src" "$copy/crates/$crate/specs"
    echo "// $crate" >"$copy/crates/$crate/src/lib.rt"
done
echo class >"$copy/examples/Add.class"

# It writes down each call. FAIL_AT is the crate at which it fails, and its program ends with 11.
cat >"$made/bin/rt" <<'STUB'
#!/bin/sh
echo "$1 ${PWD##*/}" >>"$CALLS"
echo "words of the prover"
[ "${PWD##*/}" != "${FAIL_AT-}" ] || exit 1
if [ "$1" = run ]; then
    mkdir -p out
    printf '#!/bin/sh\necho "program in ${PWD##*/}: $*"\necho "its errors" >&2\nexit 11\n' >out/ti_host
    chmod +x out/ti_host
elif [ "$1" = try ]; then
    echo "tried: $*"
    exit 9
fi
STUB
chmod +x "$made/bin/rt"
CALLS=$made/calls
export CALLS
PATH=$made/bin:$PATH

# Runs the launcher with these words, and compares its status, what it wrote, how often rt was called, and its last words.
try() {
    name=$1 status=$2 out=$3 calls=$4 last=$5
    shift 5
    : >"$CALLS"
    told=0
    (cd "$copy/examples" && ../fezhalon "$@") >"$made/out" 2>"$made/err" || told=$?
    if [ "$told" = "$status" ] && [ "$(cat "$made/out")" = "$out" ] && [ "$(wc -l <"$CALLS" | tr -d ' ')" = "$calls" ] &&
        [ "$(tail -n 1 "$made/err")" = "$last" ]; then
        echo "ok $name"
    else
        echo "WRONG $name: status $told, $(wc -l <"$CALLS") calls"
        cat "$made/out" "$made/err" "$CALLS"
        wrong=1
    fi
}

# Makes a file a second newer than the program, which file systems with coarse times tell apart.
edit() {
    sleep 1.1
    echo "// more" >>"$1"
}

ran='program in examples: run --main Add --class Add.class'
words='run --main Add --class Add.class'
# shellcheck disable=SC2086
{
    FAIL_AT=class_tree; export FAIL_AT
    try "a build fails" 70 "" 2 "fezhalon: class_tree was not proved and built; crates/ti_host/out/build.log says why" $words
    FAIL_AT=ti_host
    try "the program's own proof fails" 70 "" 4 "fezhalon: ti_host was not proved and built; crates/ti_host/out/build.log says why" $words
    FAIL_AT=
    try "nothing is built" 11 "$ran" 4 "its errors" $words
    try "built and fresh" 11 "$ran" 0 "its errors" $words
    edit "$copy/crates/class_tree/src/lib.rt"
    try "a source is newer" 11 "$ran" 4 "its errors" $words
    try "fresh again" 11 "$ran" 0 "its errors" $words
    edit "$copy/crates/type_rules/src/lib.rt"
    try "a crate is newer that is no part of it" 11 "$ran" 0 "its errors" $words
    sleep 1.1
    rm "$copy/crates/ti_ids/src/lib.rt"
    try "a source is gone" 11 "$ran" 4 "its errors" $words
    edit "$copy/crates.txt"
    FAIL_AT=ti_ids
    try "a build over an old program fails" 70 "" 1 "fezhalon: ti_ids was not proved and built; crates/ti_host/out/build.log says why" $words
    FAIL_AT=
    try "the list of crates is newer" 11 "$ran" 4 "its errors" $words
    try "without words" 11 "program in examples: " 0 "its errors"
    try "unproved" 9 "words of the prover
tried: try --data main.class=$copy/examples/Add.class -- run --main Add --class main.class" 1 \
        "fezhalon: nothing is proved of this run: rt try compiles the program anew, with checks, which takes about a minute" --unproved $words
}
exit "$wrong"
