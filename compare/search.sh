#!/usr/bin/env bash
# Searches for the dearest line and counts its instructions with valgrind's callgrind. Needs valgrind and a built `compare`.
#   bash search.sh [STEPS] [SEED]       the search: its find as text, and both counts of it
#   bash search.sh count FILE           the library's instructions for the line of each candidate of a file
#   bash search.sh batch FILE           those for a batch of 32 copies of the line: all, and for each line
#   bash search.sh fit [COUNT] [SEED]   the weights of the search's model, fitted to counts of so many lines
set -eu
cd "$(dirname "$0")"
compare=target/release/compare
valgrind=$(command -v valgrind)
folder=$(mktemp -d)
trap 'rm -r "$folder"' EXIT

# Each call of the library, for a line or a batch, is dumped with its total; a last dump, at the end of the process, is empty.
count() {
  env -i "$valgrind" --tool=callgrind --callgrind-out-file="$folder/$1" --combine-dumps=yes \
    --toggle-collect="vurzhelik_read_$1" --dump-after="vurzhelik_read_$1" "$compare" search read "$1" "$2" >/dev/null 2>&1
  sed -n 's/^totals: //p' "$folder/$1" | sed '$d'
}
count_batch() {
  count batch "$1" | awk '{ print $1 " in a batch, " int($1 / 32) " for each line" }'
}

case ${1-} in
count)
  count line "$2"
  ;;
batch)
  count_batch "$2"
  ;;
fit)
  "$compare" search spread "${2-400}" "${3-1}" >"$folder/spread"
  count line "$folder/spread" >"$folder/counts"
  "$compare" search fit "$folder/spread" "$folder/counts"
  ;;
*)
  "$compare" search "$@" | tee "$folder/found"
  count line "$folder/found"
  count_batch "$folder/found"
  ;;
esac
