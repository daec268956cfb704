#!/bin/sh
# time.sh FOLDER CRATE..: builds the program of checks/FOLDER in a workspace of its own over these crates, and runs clang and
# it on 1 MiB of ordinary C in turn, eight times. It prints clang's nanoseconds, and what the program prints. The crates are
# proved first, which takes up to an hour where no check of them was kept. The gate takes no source outside the crates that
# crates.txt lists, so the program's file ends in .txt.
set -eu
folder=$1
shift
here=$(cd "$(dirname -- "$0")" && pwd)
top=$(cd "$here/.." && pwd)
program="${folder}_time"
work=$(mktemp -d)
trap 'rm -rf "$work"' EXIT
mkdir -p "$work/crates/$program/src" "$work/crates/$program/specs" "$work/crates/$program/proofs" "$work/data"
for name in "$@"; do
    cp -r "$top/crates/$name" "$work/crates/$name"
    grep "^$name:" "$top/crates.txt" >>"$work/crates.txt"
done
echo "$program: $*" >>"$work/crates.txt"
cp "$top/HANDLES" "$work/HANDLES"
cp "$here/$folder/src/main.rt.txt" "$work/crates/$program/src/main.rt"
python3 "$here/make_text.py" "$work/data/text.c" >"$work/log"
(cd "$work/crates/$program" && rt run -- >"$work/log" 2>&1) || true
[ -x "$work/crates/$program/out/$program" ] || { cat "$work/log" >&2; exit 1; }
cd "$work/data"
for turn in 1 2 3 4 5 6 7 8; do
    begin=$(date +%s%N)
    clang -fsyntax-only -w text.c
    echo "clang $(($(date +%s%N) - begin))"
    "$work/crates/$program/out/$program"
done
