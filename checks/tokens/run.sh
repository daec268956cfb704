#!/bin/sh
# Times tokens and their expansion beside clang: nanoseconds of each at the first call, and the best of forty calls.
exec sh "$(dirname -- "$0")/../time.sh" tokens pungi_base pungi_lex
