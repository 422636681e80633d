#!/bin/sh
# How long the built program and the class reader and writer inside the JDK take to read and write the same class files: those of
# java.base that the program accepts, each marked as one of version 52, since the JDK's own are of a later one. Each file is read and
# written five times in a row, all files one after the other, in so many rounds; the best round counts, so that java is warm. The
# program's time for one turn fewer, with the reading of the files from disk, is taken off. It runs outside the gate, and is skipped
# where the program isn't built or this java hasn't that reader.
set -eu
here=$(cd "$(dirname "$0")" && pwd)
program=$here/../crates/classfile_check/out/classfile_check
if [ ! -x "$program" ]; then
    echo "reading.sh: skipped, since classfile_check isn't built"
    exit 0
fi
if ! command -v java >/dev/null 2>&1; then
    echo "reading.sh: skipped, since java is missing"
    exit 0
fi
program=$(cd "$(dirname "$program")" && pwd)/classfile_check
times=5
rounds=8
folder=$(mktemp -d)
trap 'rm -rf "$folder"' EXIT
mkdir "$folder/classes"

# java with the words
reading() {
    java --add-exports java.base/jdk.internal.org.objectweb.asm=ALL-UNNAMED "$here/Reading.java" "$@"
}

if ! reading write "$folder/classes" 2>"$folder/errors.txt"; then
    echo "reading.sh: skipped, since this java has no jdk.internal.org.objectweb.asm"
    exit 0
fi
cd "$folder/classes"
find . -name '*.class' | sort | xargs "$program" >../lines.txt || true
awk '$2 == "accepted" { print $1 }' ../lines.txt >../names.txt
bytes=$(awk '$2 == "accepted" { bytes += $3 } END { print bytes }' ../lines.txt)
echo "files: $(wc -l <../names.txt), bytes: $bytes"

# nanoseconds of the best call with so many turns
best() {
    least=''
    round=0
    while [ "$round" -lt "$rounds" ]; do
        began=$(date +%s%N)
        xargs "$program" --times "$1" <../names.txt >../times.txt
        ended=$(date +%s%N)
        if [ -z "$least" ] || [ $((ended - began)) -lt "$least" ]; then
            least=$((ended - began))
        fi
        round=$((round + 1))
    done
    echo "$least"
}

once=$(best 1)
often=$(best $((times + 1)))
ours=$(((often - once) / times))
theirs=$(($(reading read $times $rounds . ../names.txt) / times))
echo "the program: $((ours / 1000)) microseconds a turn, $((bytes * 1000 / (ours / 1000))) bytes a millisecond"
echo "the JDK: $((theirs / 1000)) microseconds a turn, $((bytes * 1000 / (theirs / 1000))) bytes a millisecond"
echo "the JDK's time for one of ours: $((theirs * 100 / ours)) hundredths"
