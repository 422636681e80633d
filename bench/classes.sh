#!/bin/sh
# Bytes a second that the built program reads and writes, over the largest class file by javac in its data/ and over one of about a
# mebibyte, which has many methods, texts and stack maps. The time of a call with one turn is taken off. It runs outside
# the gate, and is skipped where the program isn't built or python3 is missing.
set -eu
here=$(cd "$(dirname "$0")" && pwd)
program=$here/../crates/classfile_check/out/classfile_check
if [ ! -x "$program" ]; then
    echo "classes.sh: skipped, since classfile_check isn't built"
    exit 0
fi
if ! command -v python3 >/dev/null 2>&1; then
    echo "classes.sh: skipped, since python3 is missing"
    exit 0
fi
folder=$(mktemp -d)
trap 'rm -rf "$folder"' EXIT
cp "$here/../crates/classfile_check/data/Shape.class" "$folder/Small.class"
cd "$folder"
python3 "$here/large_class.py" 9800 Large.class

# seconds of a call with so many turns
seconds() {
    began=$(date +%s%N)
    "$program" --times "$1" "$2" >line.txt
    ended=$(date +%s%N)
    echo $((ended - began))
}

measure() {
    one=$(seconds 1 "$2")
    all=$(seconds $(($1 + 1)) "$2")
    bytes=$(wc -c <"$2")
    if [ "$(cat line.txt)" != "$2 accepted $bytes" ]; then
        echo "classes.sh: $(cat line.txt)"
        exit 1
    fi
    echo "$2: $bytes bytes, $1 times: $((bytes * $1 * 1000 / ((all - one) / 1000000 + 1))) bytes a second"
}

measure 20000 Small.class
measure 50 Large.class
