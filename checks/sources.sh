#!/bin/sh
# The SHA-256 sum of the sources that the program is built from: src/ of `pungi` and of the crates that it stands on, with what
# crates.txt says of these.
set -eu
cd "$(dirname -- "$0")/.."
export LC_ALL=C
# The crates of the repository among a crate's libraries are those with a line of their own.
lines=$(awk -F: '
    /^[a-z]/ { split($1, head, " "); uses[head[1]] = $2; line[head[1]] = $0 }
    function visit(name, parts, count, i) {
        if (name in seen || !(name in uses)) return
        seen[name] = 1
        count = split(uses[name], parts, " ")
        for (i = 1; i <= count; i++) visit(parts[i])
    }
    END { visit("pungi"); for (name in seen) print line[name] }
' crates.txt | sort)
folders=$(printf '%s\n' "$lines" | sed 's/[ :].*//; s|.*|crates/&/src|')
{
    printf '%s\n' "$lines"
    find $folders -name '*.rt' | sort | xargs sha256sum
} | sha256sum | cut -d ' ' -f 1
