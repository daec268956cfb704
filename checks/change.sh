#!/bin/sh
# change.sh CRATE: the whole round after a change in a crate: it lays out its files, proves it, runs its tests, tries its edits,
# writes docs/CONTRACTS.md anew and looks at the repository. Then it lists the crates above, which the gate proves again, with
# the processor minutes of their budgets. It stops at the first step that fails.
set -eu
[ $# -eq 1 ] || { echo 'usage: sh checks/change.sh CRATE' >&2; exit 2; }
crate=$1
top=$(cd "$(dirname -- "$0")/.." && pwd)
cd "$top"
[ -d "crates/$crate" ] || { echo "change: there is no crates/$crate" >&2; exit 2; }
(cd "crates/$crate" && rt fmt && rt check && rt test)
[ ! -d "crates/$crate/must-fail" ] || rt must-fail "$crate"
[ ! -d "checks/edits/$crate" ] || python3 checks/edits.py "$crate"
python3 checks/contracts.py >docs/CONTRACTS.md
sh checks/repository.sh
python3 - "$crate" <<'END'
import sys
sys.path.insert(0, "checks")
from costs import HERE, crates, table
changed, stands_on = sys.argv[1], crates()
budgets = dict(table(f"{HERE}/budgets.tsv"))
above = [changed]
for crate in stands_on:
    if any(it in above for it in stands_on[crate]):
        above.append(crate)
minutes = sum(float(budgets.get(it, 0)) for it in above)
print(f"change: the gate proves these again, in some {minutes:.0f} processor minutes: {', '.join(above)}")
END
