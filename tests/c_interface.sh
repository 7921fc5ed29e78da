#!/usr/bin/env bash
# The library as C sees it: the header, the examples and the programs in c/ compile without a warning in every dialect, they print what is stored there,
# the archive needs no other function than the header says, and no function takes more stack. Its last line is 'N passed, M failed'.
#
#     tests/archive.sh && tests/c_interface.sh
cd "$(dirname "$0")/.."
warnings="-Wall -Wextra -Wpedantic -Wconversion -Wshadow -Werror"
archive=target/staticlib/libwarnbox.a
folder=$(mktemp -d)
trap 'rm -rf "$folder"' EXIT
passed=0
failed=0

# try WHAT COMMAND...: passes where the command does
try() {
    what=$1
    shift
    if "$@" >"$folder/said" 2>&1; then
        passed=$((passed + 1))
    else
        failed=$((failed + 1))
        echo "$what: $*"
        cat "$folder/said"
    fi
}

# prints PROGRAM EXPECTED-FILE ARGUMENTS...: the program prints what the file holds, with standard input as it is
prints() {
    program=$1 expected=$2
    shift 2
    "$folder/$program" "$@" >"$folder/printed"
    try "$program $*" diff "$expected" "$folder/printed"
}

# receives HEX-FILE EXPECTED-FILE: the example prints that of a packet
receives() {
    python3 -c 'import sys; sys.stdout.buffer.write(bytes.fromhex(open(sys.argv[1]).read()))' "$1" >"$folder/packet"
    prints receipt "$2" "$folder/packet"
}

# ---- the compile matrix; for 32 bits without a C library, since the header needs none

for compiler in gcc clang; do
    command -v "$compiler" >/dev/null || continue
    for dialect in c99 c11 c17; do
        for source in tests/c/calls.c tests/c/running.c examples/sentence.c examples/receipt.c; do
            try "$compiler $dialect" "$compiler" -std="$dialect" $warnings -Iinclude -fsyntax-only "$source"
        done
        try "$compiler $dialect, 32 bits" "$compiler" -m32 -ffreestanding -std="$dialect" $warnings -Iinclude -fsyntax-only tests/c/calls.c
    done
    try "$compiler C++17" "$compiler" -x c++ -std=c++17 $warnings -Iinclude -fsyntax-only tests/c/calls.c
    try "$compiler C++17, 32 bits" "$compiler" -x c++ -m32 -ffreestanding -std=c++17 $warnings -Iinclude -fsyntax-only tests/c/calls.c
done

# ---- the archive: linked from C and C++, run

try "C11, linked" gcc -std=c11 -O2 -Iinclude tests/c/calls.c "$archive" -o "$folder/calls"
try "calls on empty inputs" "$folder/calls"
try "C++17, linked" g++ -x c++ -std=c++17 -O2 -Iinclude tests/c/calls.c -x none "$archive" -o "$folder/calls_cpp"
try "calls on empty inputs, C++" "$folder/calls_cpp"

for source in tests/c/running.c examples/sentence.c examples/receipt.c; do
    program=$(basename "$source" .c)
    try "$program, linked" gcc -std=c99 -O2 -Iinclude "$source" "$archive" -o "$folder/$program"
done
prints running tests/c/running.out tests/c/running.in
prints sentence tests/c/sentence.out <tests/vectors/007-I4.xml
prints sentence tests/c/late-refusal.out <tests/c/late-refusal.xml
prints sentence tests/c/refused.out <tests/vectors/005-A2-raw.xml
receives tests/vectors/warn-01-sample.hex tests/c/receipt.out
receives tests/c/uncancelled.hex tests/c/uncancelled.out # the sample without its CANCEL flag

# ---- what it needs from outside: what the header says, no more

try "names from outside" sh -c '! nm -u "$1" | grep " U " | grep -vE " U (memcpy|memset)$"' sh "$archive"

# ---- its stack

try "stack" tests/stack.py "$archive"

echo "$passed passed, $failed failed"
[ "$failed" -eq 0 ]
