#!/usr/bin/env bash
# Runs the built programs on the samples of tests/vectors and tests/requests, and on the coasts of tests/coasts.py, and compares what they write byte for byte. Its last line is 'N passed, M failed'.
cd "$(dirname "$0")/.."
passed=0
failed=0

# expect WHAT EXPECTED-FILE ACTUAL-FILE
expect() {
    if cmp -s "$2" "$3"; then
        passed=$((passed + 1))
    else
        failed=$((failed + 1))
        echo "$1: expected"
        cat "$2"
        echo "and got"
        cat "$3"
    fi
}

got=$(mktemp)
wanted=$(mktemp)
coasts=$(mktemp -d)
trap 'rm -rf "$got" "$wanted" "$coasts"' EXIT

for document in tests/vectors/*.xml tests/requests/*.xml; do
    crates/sentences/out/sentences <"$document" >"$got"
    expect "$document" "${document%.xml}.out" "$got"
done

for packet in tests/vectors/*.hex; do
    python3 -c 'import sys; sys.stdout.buffer.write(bytes.fromhex(open(sys.argv[1]).read()))' "$packet" | crates/packet_sentence/out/packet_sentence >"$got"
    expect "$packet" "${packet%.hex}.out" "$got"
done

# ask FOLDER: lines of FOLDER/places.txt: DOCUMENT LATITUDE LONGITUDE ANSWER, with "/" for a line's end in the answer; or "#" and what is said about them
ask() {
    while read -r document latitude longitude answer; do
        [ "$document" != "#" ] || continue
        crates/inside/out/inside "$latitude" "$longitude" <"$1/$document.xml" >"$got"
        echo "$answer" | tr / '\n' >"$wanted"
        expect "$document $latitude $longitude" "$wanted" "$got"
    done <"$1/places.txt"
}
ask tests
python3 tests/coasts.py "$coasts"
ask "$coasts"

cat tests/vectors/007-I4.out tests/vectors/warn-01-sample.out >"$wanted"
crates/list_readbacks/out/list_readbacks <"$wanted" >"$got"
(echo "3 read-backs"; cat "$wanted") >"$got.all"
expect "list_readbacks" "$got.all" "$got"
(cat "$wanted"; echo "cap alert.") | crates/list_readbacks/out/list_readbacks >"$got"
echo "refused 23 at $(stat -c %s "$wanted")" >"$got.all"
expect "list_readbacks, a damaged text" "$got.all" "$got"
# no answer about a part of an input: 2,048 lines of 146 bytes are more than the program holds
yes "$(head -1 tests/vectors/007-I4.out)" | head -n 2048 | crates/list_readbacks/out/list_readbacks >"$got"
echo "input over 262144 bytes" >"$got.all"
expect "list_readbacks, a text too long" "$got.all" "$got"
yes "$(head -1 tests/vectors/007-I4.out)" | head -n 1795 >"$wanted"
(echo "1795 read-backs"; cat "$wanted") >"$got.all"
crates/list_readbacks/out/list_readbacks <"$wanted" >"$got"
expect "list_readbacks, a long text" "$got.all" "$got"
echo "input can't be read" >"$got.all"
for program in sentences packet_sentence "inside 0 0" list_readbacks; do
    crates/${program%% *}/out/$program <tests >"$got"
    expect "$program, a folder as its input" "$got.all" "$got"
done
# a read that fails just behind as many bytes as the program takes: failing BYTES PROGRAM ARGUMENTS...
failing() {
    python3 -c 'import fcntl, os, subprocess, sys
ours, theirs = os.pipe()
fcntl.fcntl(theirs, 1031, 1 << 17)  # F_SETPIPE_SZ
os.write(theirs, b"x" * int(sys.argv[1]))
os.set_blocking(ours, False)
subprocess.run(sys.argv[2:], stdin=ours)' "$1" "crates/$2/out/$2" "${@:3}"
}
for program in "65537 sentences" "1201 packet_sentence" "65537 inside 0 0"; do
    failing $program >"$got"
    expect "$program, a read that fails behind" "$got.all" "$got"
done
# whether the output can be written is not looked at: no program fails for it, or says so
echo 0 >"$got.all"
for program in sentences packet_sentence "inside 0 0" list_readbacks values_test readback_test receive_test document_test; do
    records=crates/${program%% *}/stdin
    [ -e "$records" ] || records=/dev/null
    crates/${program%% *}/out/$program <"$records" >/dev/full 2>"$got"
    echo $? >>"$got"
    expect "$program, a full disk" "$got.all" "$got"
done
head -c 262145 /dev/zero | crates/receive_test/out/receive_test >"$got"
echo "input over 262144 bytes" >"$got.all"
expect "receive_test, an input too long" "$got.all" "$got"
head -c 65537 /dev/zero | crates/values_test/out/values_test | tail -n 1 >"$got"
echo "input over 65536 bytes" >"$got.all"
expect "values_test, an input too long" "$got.all" "$got"
printf '\377\377\377' | crates/document_test/out/document_test >"$got"
echo "document over 70000 bytes" >"$got.all"
expect "document_test, a document too long" "$got.all" "$got"
printf '\0\0\377' | crates/document_test/out/document_test >"$got"
echo "document cut short" >"$got.all"
expect "document_test, a document cut short" "$got.all" "$got"
(cat tests/vectors/warn-01-sample.out; yes) | head -c 70000 | crates/sentences/out/sentences >"$got"
echo "refused 14 at 0" >"$got.all"
expect "sentences, an input too long" "$got.all" "$got"

crates/inside/out/inside 91 0 </dev/null | grep -c '^usage: ' >"$got"
echo 1 >"$got.all"
expect "inside, bad arguments" "$got.all" "$got"
rm -f "$got.all"

echo "$passed passed, $failed failed"
[ "$failed" -eq 0 ]
