#!/bin/sh
# What the gate of the kit does not look at: the one line of HANDLES, that every crate with functions other than tests has edits
# that must fail and that each can be applied, the links of the documents, the README's report, that docs/CONTRACTS.md is
# current, that docs/COSTS.md is what was measured, and that no more definitions stand below the verdicts than docs/CLAIMS.md states.
set -u
cd "$(dirname -- "$0")/.." || exit 2
failed=0
complain() {
    echo "checks: $1"
    failed=1
}
[ "$(cat HANDLES)" = 'Handles allowed: none.' ] || complain 'HANDLES is not its one line'
for name in $(sed -n 's/^\([a-z0-9_]*\)[ a-z0-9_=]*:.*/\1/p' crates.txt); do
    # Tests alone, types alone, and laws whose bodies are empty have no body that an edit could change.
    case "$name" in *_tests | pungi_tree | pungi_layout | pungi_kinds) continue ;; esac
    grep -rq --include='*.rt' '\bfn ' "crates/$name/src" || continue
    [ -n "$(ls crates/"$name"/must-fail/*.edit checks/edits/"$name"/*.edit 2>/dev/null)" ] || complain "$name has no edit that must fail"
done
python3 checks/edits.py || failed=1
for page in README.md CONTRIBUTING.md docs/*.md; do
    for link in $(sed -n 's/.*](\([^)#:]*\)[^):]*).*/\1/p' "$page"); do
        [ -e "$(dirname -- "$page")/$link" ] || complain "$page points at $link, which is not there"
    done
done
# The gate runs the program on the README's example, so the README's report is the stored one.
shown=$(sed -n '/^and this is the report:$/,/^`append_one`/p' README.md | sed -n '/^```$/,/^```$/p' | sed '/^```$/d')
[ "$shown" = "$(cat crates/pungi/stdout)" ] || complain 'the report in README.md is not crates/pungi/stdout'
[ "$(python3 checks/contracts.py)" = "$(cat docs/CONTRACTS.md)" ] || complain 'docs/CONTRACTS.md is old: python3 checks/contracts.py >docs/CONTRACTS.md'
[ "$(python3 checks/costs.py --runs checks/runs.tsv)" = "$(cat docs/COSTS.md)" ] || complain 'docs/COSTS.md is not what checks/runs.tsv and checks/budgets.tsv give'
python3 checks/trusted.py --check || failed=1
exit $failed
