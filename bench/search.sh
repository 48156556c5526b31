#!/bin/sh
# A search to its end over a strip of a million cells with ten labels a cell, of one step a cell, of two and of
# four, and of ten thousand cells with a hundred labels a cell; with more than one step once more where superseded
# labels leave the covering test (a last word 1): labels per second of the processor and of the clock, and bytes
# per label, which are the peak of the memory less that of a strip of one cell, by the labels. The strip itself is
# four numbers. Where a cell has one step, each label is made once; else most are made twice, and one of the two is
# dropped when it is taken.
# TIMINGS names the program `map_cases`, which times what its words name, where not the one at `crates/map_cases/out`, which the gate leaves there.
timings=${TIMINGS:+$(realpath "$TIMINGS")}
cd "$(dirname "$0")/.." || exit 1
[ -n "$timings" ] || [ -x crates/map_cases/out/map_cases ] || (cd crates/map_cases && rt run < stdin > /dev/null 2>&1) || exit 1
timings=${timings:-crates/map_cases/out/map_cases}
empty=$(/usr/bin/time -f '%M' "$timings" search 1 1 1 0 2>&1 >/dev/null)

# One search with these words: labels, seconds of the clock and of the processor, KB.
for words in '1000 1000 10 1' '1000 1000 10 2' '1000 1000 10 2 1' '1000 1000 10 4' '1000 1000 10 4 1' \
  '100 100 100 4' '100 100 100 4 1'; do
  for _ in 1 2 3; do
    /usr/bin/time -f '%e %U %S %M' "$timings" search $words 2>&1 | tr '\n' ' '
    echo
  done | sort -n -k 5 | awk -v words="$words" -v empty="$empty" '
    NR == 2 {
      printf "%s: %d labels, %s s, %s s of the processor and %s s of the system, ", words, $1, $4, $5, $6
      printf "%.0f labels/s of the processor, %.0f labels/s, ", $1 / $5, $1 / $4
      printf "%.1f bytes a label\n", ($7 - empty) * 1024 / $1
    }'
done
