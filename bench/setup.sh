# shellcheck shell=bash
# What run and instructions share: sourced with their arguments [ARCHIVE [BEFORE]], it goes to the project's folder, makes a temporary folder with the
# inputs, and says how a program is built.
set -euo pipefail
cd "$(dirname "${BASH_SOURCE[0]}")/.."
# shellcheck disable=SC2034 # both are for the script that sources this
archive=${1:-target/staticlib/libwarnbox.a} before=${2:-}

folder=$(mktemp -d)
trap 'rm -rf "$folder"' EXIT
python3 bench/inputs.py "$folder"
build() { # NAME ARCHIVE FLAGS...
    cc -O2 -Wall -Iinclude "bench/$1.c" "${@:2}" -o "$folder/$1"
}
