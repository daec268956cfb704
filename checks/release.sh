#!/bin/sh
# release.sh           compares the program in release/ byte for byte with the one that the gate built in this checkout, if
#                      release/sums says that it is of these sources
# release.sh refresh   puts the program that the gate built there, without its symbols, and its sums
# The gate leaves the program in crates/pungi/out/. Both are links of what the prover compiled from the proved sources, by the
# same compiler and linker, which put neither a path nor a time into it.
set -u
cd "$(dirname -- "$0")/.." || exit 2
built=crates/pungi/out/pungi
sum_of() {
    sha256sum "$1" | cut -d ' ' -f 1
}
stated() {
    sed -n "s/^$1 //p" release/sums 2>/dev/null
}
room=$(mktemp -d) || exit 2
trap 'rm -rf "$room"' EXIT
# The kit's strip is its compiler by another name.
strip_built() {
    ln -s "$(dirname -- "$(rt doc)")/toolchain/bin/clang" "$room/llvm-strip" && "$room/llvm-strip" -o "$room/pungi" "$built"
}
sources=$(sh checks/sources.sh) || exit 2
if [ "${1-}" = refresh ]; then
    strip_built || exit 1
    mkdir -p release
    cp "$room/pungi" release/pungi
    chmod 755 release/pungi
    printf 'program %s\nsources %s\nkit %s\n' "$(sum_of release/pungi)" "$sources" "$(rt version)" >release/sums
    exit 0
fi
if [ ! -e release/sums ]; then
    echo 'release: no program is shipped'
    exit 0
fi
if [ "$(sum_of release/pungi)" != "$(stated program)" ]; then
    echo 'release: the program in release/ is not the one of release/sums'
    exit 1
fi
if [ "$sources" != "$(stated sources)" ]; then
    echo 'release: the program in release/ is of other sources, so it was not compared'
    exit 0
fi
if [ "$(rt version)" != "$(stated kit)" ]; then
    echo 'release: the program in release/ is of another kit, so it was not compared'
    exit 0
fi
strip_built || exit 1
if ! cmp -s "$room/pungi" release/pungi; then
    echo 'release: the program that was built from these sources is not the one in release/'
    exit 1
fi
echo 'release: the program in release/ is the one that was built from these sources'
