#!/bin/sh
# Builds the program of speed/ in a workspace of its own and runs it. It prints the times of `solve` over spans, so the gate
# does not run it, and at the end the most memory that the process took. Its file ends in .txt, since the gate takes no
# source outside the crates that crates.txt lists.
set -eu
top=$(cd "$(dirname -- "$0")/../.." && pwd)
work=$(mktemp -d)
trap 'rm -rf "$work"' EXIT
mkdir -p "$work/crates/fixpoint_speed/src"
names='pungi_base pungi_links pungi_domain pungi_affine pungi_fixpoint'
for name in $names; do
    cp -r "$top/crates/$name" "$work/crates/$name"
    grep "^$name:" "$top/crates.txt" >>"$work/crates.txt"
done
echo "fixpoint_speed: $names" >>"$work/crates.txt"
cp "$top/HANDLES" "$work/HANDLES"
cp "$top/checks/fixpoint/speed/main.rt.txt" "$work/crates/fixpoint_speed/src/main.rt"
cd "$work/crates/fixpoint_speed"
rt run >"$work/log" 2>&1 || true
[ -x out/fixpoint_speed ] || { cat "$work/log" >&2; exit 1; }
python3 -c '
import resource, subprocess, sys
subprocess.run(sys.argv[1:], check=True)
print("most memory:", resource.getrusage(resource.RUSAGE_CHILDREN).ru_maxrss // 1000, "MB")' out/fixpoint_speed
