#!/usr/bin/env bash
# Counts the instructions that the library and its twin take for each book checked alone, for each sample, read as a line and with the words
# in its way, and for a batch of lines, with valgrind's callgrind, and prints a row for each: library, twin, name. Behind a book in slash
# notation stands its ratio to the same book by numbers, and behind a sample with the words in its way that to the line, which is the row
# before it. Needs valgrind and a built `compare`. The environment is emptied: where it lies moves the
# stack, and with that the instructions with which a buffer is cleared, by some 200.
set -eu
cd "$(dirname "$0")"
valgrind=$(command -v valgrind)
count() {
  env -i "$valgrind" --tool=callgrind --callgrind-out-file=/dev/null --toggle-collect="$1" \
    target/release/compare "$2" "$3" "$4" 2>&1 | sed -n 's/.*Collected : //p'
}
row() {
  printf '%12d %12d  %s\n' "$@"
}
ratio() {
  awk "BEGIN { printf \"%12.3f %12.3f  %s\n\", $1 / $2, $3 / $4, \"ratio of the two\" }"
}
target/release/compare books | while read -r book; do
  library_before=${library-} twin_before=${twin-}
  library=$(count vurzhelik_check_book check library "$book")
  twin=$(count 'compare::twin::book::check_book*' check twin "$book")
  row "$library" "$twin" "book: $book"
  case $book in
  *", in slashes") ratio "$library" "$library_before" "$twin" "$twin_before" ;;
  esac
done
target/release/compare samples | while read -r sample; do
  library=$(count vurzhelik_read_line once library "$sample")
  twin=$(count 'compare::twin::reader::read_line*' once twin "$sample")
  row "$library" "$twin" "$sample"
  library_way=$(count vurzhelik_words_in_the_way way library "$sample")
  twin_way=$(count 'compare::twin::ways::words_in_the_way*' way twin "$sample")
  row "$library_way" "$twin_way" "$sample, with the words in its way"
  ratio "$library_way" "$library" "$twin_way" "$twin"
done
library_together=$(count vurzhelik_read_batch batch library together)
twin_together=$(count 'compare::twin::batch::read_batch*' batch twin together)
library_alone=$(count vurzhelik_read_line batch library alone)
twin_alone=$(count 'compare::twin::reader::read_line*' batch twin alone)
row "$library_together" "$twin_together" "32 typical lines, in one batch"
row "$library_alone" "$twin_alone" "32 typical lines, one by one"
ratio "$library_together" "$library_alone" "$twin_together" "$twin_alone"
