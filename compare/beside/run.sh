#!/usr/bin/env bash
# Times the library beside link-grammar, in one run: see beside.c. Needs `rt lib` in crates/vurzhelik run before, a C compiler, and Debian's
# package liblink-grammar-dev.
set -eu
cd "$(dirname "$0")"
program=$(mktemp)
trap 'rm "$program"' EXIT
cc -O2 -I../../include beside.c ../../crates/vurzhelik/out/libvurzhelik.a -llink-grammar -o "$program"
"$program" ../../crates/reading/data/book.bin ./orders
