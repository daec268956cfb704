#!/bin/sh
# Builds the program of this folder in a workspace of its own, and runs it: it prints the milliseconds that a walk over the
# 16,384 traces of two codes takes. The crates are proved first, which takes up to an hour where no check of them was kept.
# The gate takes no source outside the crates that crates.txt lists, so the program's file ends in .txt.
set -eu
here=$(cd "$(dirname -- "$0")" && pwd)
top=$(cd "$here/../.." && pwd)
work=$(mktemp -d)
trap 'rm -rf "$work"' EXIT
mkdir -p "$work/crates/symbol_time/src" "$work/crates/symbol_time/specs" "$work/crates/symbol_time/proofs"
uses="$(sed -n 's/^pungi_symbol: //p' "$top/crates.txt") pungi_tree pungi_symbol"
for name in $uses; do
    cp -r "$top/crates/$name" "$work/crates/$name"
    grep "^$name:" "$top/crates.txt" >>"$work/crates.txt"
done
echo 'symbol_time: pungi_base pungi_api pungi_meaning pungi_code pungi_symbol' >>"$work/crates.txt"
cp "$top/HANDLES" "$work/HANDLES"
cp "$here/src/main.rt.txt" "$work/crates/symbol_time/src/main.rt"
(cd "$work/crates/symbol_time" && rt run -- >"$work/log" 2>&1) || true
[ -x "$work/crates/symbol_time/out/symbol_time" ] || { cat "$work/log"; exit 1; }
for turn in 1 2 3; do
    "$work/crates/symbol_time/out/symbol_time"
done
