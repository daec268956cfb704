#!/bin/sh
# Installs what pungi-module needs: a C compiler, the headers of Python, and pycparser, from the system's packages.
#     sh tools/setup.sh
# It says what is there and what it installs. It needs the rights of root only where something is missing.
set -eu
missing=
# PACKAGE COMMAND..: names the package as missing where the command fails.
need() {
    package=$1
    shift
    if "$@" >/dev/null 2>&1; then
        echo "setup: $package: there"
    else
        echo "setup: $package: missing"
        missing="$missing $package"
    fi
}
need gcc gcc --version
need python3 python3 -c 'import sys; sys.exit(sys.version_info < (3, 11))'
need python3-dev python3 -c 'import os, sys, sysconfig; sys.exit(not os.path.exists(sysconfig.get_paths()["include"] + "/Python.h"))'
need python3-pycparser python3 -c 'import pycparser'
if [ -n "$missing" ]; then
    command -v apt-get >/dev/null || { echo "setup: install these by hand, since there is no apt-get:$missing" >&2; exit 1; }
    echo "setup: apt-get install$missing"
    # shellcheck disable=SC2086
    apt-get install -y --no-install-recommends $missing
    python3 -c 'import pycparser' || { echo 'setup: this python3 does not see the packages of the system; use the one of the system' >&2; exit 1; }
fi
top=$(dirname -- "$0")/..
if [ -x "$top/crates/pungi/out/pungi" ]; then
    echo 'setup: the program pungi: built here'
elif [ "$(sh "$top/checks/sources.sh")" = "$(sed -n 's/^sources //p' "$top/release/sums" 2>/dev/null)" ]; then
    echo 'setup: the program pungi: the one in release/'
else
    echo 'setup: the program pungi: not built for these sources yet; ./build proves and builds it'
fi
