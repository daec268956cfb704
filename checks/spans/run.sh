#!/bin/sh
# Builds the program of this folder in a workspace of its own and runs it. It prints the times of calls on spans, so the
# gate does not run it. Its files end in .txt, since the gate takes no source outside the crates that crates.txt lists.
set -eu
top=$(cd "$(dirname -- "$0")/../.." && pwd)
work=$(mktemp -d)
trap 'rm -rf "$work"' EXIT
mkdir "$work/crates"
for name in pungi_base pungi_domain pungi_affine; do
    cp -r "$top/crates/$name" "$work/crates/$name"
    grep "^$name:" "$top/crates.txt" >>"$work/crates.txt"
done
echo 'span_time: pungi_base pungi_domain pungi_affine' >>"$work/crates.txt"
cp "$top/HANDLES" "$work/HANDLES"
cd "$top/checks/spans"
find . -name '*.txt' | while read -r file; do
    mkdir -p "$work/crates/span_time/$(dirname "$file")"
    cp "$file" "$work/crates/span_time/${file%.txt}"
done
cd "$work/crates/span_time"
rt run
