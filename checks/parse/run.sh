#!/bin/sh
# Times tokens, their expansion and the parser beside clang: the least nanoseconds of each, and how many times as fast as
# clang the three are together.
set -eu
times=$(sh "$(dirname -- "$0")/../time.sh" parse pungi_base pungi_lex pungi_tree pungi_parse)
echo "$times" | awk '
    $1 == "clang" && (!clang || $2 < clang) { clang = $2 }
    $1 == "first" && (!first || $3 < first) { first = $3 }
    $1 == "least" && (!least || $3 < least) { least = $3; tokens = $2 }
    END {
        printf "clang %.0f\nfirst call %.0f, %.1f times as fast\n", clang, first, clang / first
        printf "later calls %.0f (tokens and their expansion %.0f), %.1f times as fast\n", least, tokens, clang / least
    }'
