#!/bin/sh
# Fetches the released modules that pungi-module is measured on, as Debian's source packages:
#     sh tools/fetch_sources.sh [FOLDER]        the folder `sources` of the system's temporary files where none is named
# Each package is unpacked into a folder of its own: python3.11, psycopg2, multidict, mysqlclient, and headers/ for those of
# the libraries that they use. The lists of the system's packages stay as they are: copies of them, with the sources asked
# for besides, stand in a folder that goes away.
set -eu
folder=${1:-$(python3 -c 'import tempfile; print(tempfile.gettempdir())')/sources}
for word in apt-get dpkg-source; do
    command -v "$word" >/dev/null || { echo "fetch_sources: there is no $word (it is in the package dpkg-dev)" >&2; exit 1; }
done
mkdir -p "$folder"
work=$(mktemp -d)
trap 'rm -rf "$work"' EXIT
mkdir -p "$work/parts" "$work/lists/partial" "$work/packages"
# Where the system's lists are: `list` is the file, and `parts` the folder, with a slash at its end.
eval "$(apt-config shell list Dir::Etc::sourcelist/f parts Dir::Etc::sourceparts/d)"
system_list=$list
# In a .sources file a stanza says `Types: deb`; in a .list file each line begins with `deb`.
for list in "$parts"*.sources; do
    [ -e "$list" ] && sed 's/^Types:.*/Types: deb deb-src/' "$list" >"$work/parts/$(basename "$list")"
done
for list in "$system_list" "$parts"*.list; do
    [ -e "$list" ] && sed -n 's/^deb \(.*\)/&\ndeb-src \1/p' "$list" >"$work/parts/sources_$(basename "$list")"
done
as_sources() {
    command=$1
    shift
    "$command" -q -o Dir::Etc::SourceList=/dev/null -o Dir::Etc::SourceParts="$work/parts" -o Dir::State::Lists="$work/lists" \
        -o Dir::Cache="$work" -o APT::Sandbox::User=root "$@"
}
as_sources apt-get update
# PACKAGE FOLDER: fetches the newest version of the package that is there, and unpacks it.
fetch() {
    if [ -d "$folder/$2" ]; then
        echo "fetch_sources: $folder/$2 is there"
        return
    fi
    for version in $(as_sources apt-cache showsrc "$1" | sed -n 's/^Version: //p' | sort -rV | uniq); do
        if (cd "$work/packages" && as_sources apt-get source --download-only "$1=$version"); then
            dpkg-source --no-check -x "$work/packages/$1"_*.dsc "$folder/$2" >/dev/null || return 1
            echo "fetch_sources: $folder/$2, version $version"
            return
        fi
    done
    echo "fetch_sources: no version of $1 could be fetched" >&2
    return 1
}
# PACKAGE: fetches the headers of a library that the modules include, and unpacks them without installing them.
headers() {
    if [ ! -d "$folder/headers/$1" ]; then
        mkdir -p "$folder/headers"
        (cd "$work/packages" && as_sources apt-get download "$1") || return 1
        dpkg-deb -x "$work/packages/$1"_*.deb "$folder/headers/$1" || return 1
    fi
    echo "fetch_sources: $folder/headers/$1"
}
# A package that cannot be fetched is said, and the others are fetched all the same.
failed=0
fetch python3.11 python3.11 || failed=1
fetch psycopg2 psycopg2 || failed=1
fetch python-multidict multidict || failed=1
fetch python-mysqldb mysqlclient || failed=1
headers libpq-dev || failed=1
headers libmariadb-dev || failed=1
exit $failed
