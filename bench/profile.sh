#!/bin/bash
# The code of a profile for trekking, run on 64 ways in turn: nanoseconds of the processor for an evaluation and for an
# operation that is carried out, which are the middle of three runs less that of runs without evaluations, and how many
# operations an evaluation has. These come from the listing and the tag numbers of the ways, on which the operations
# are carried out here once more: their cost factors have to sum up to what the program prints. Its word is how many
# evaluations a run makes: a million where there is none.
# TIMINGS names the program `map_cases`, which times what its words name, where not the one at `crates/map_cases/out`, which the gate leaves there.
timings=${TIMINGS:+$(realpath "$TIMINGS")}
cd "$(dirname "$0")/.." || exit 1
[ -n "$timings" ] || [ -x crates/map_cases/out/map_cases ] || (cd crates/map_cases && rt run < stdin > /dev/null 2>&1) || exit 1
timings=${timings:-crates/map_cases/out/map_cases}
TIMEFORMAT='%3U'

# The middle of three runs with so many evaluations: seconds of the processor.
seconds() {
  for _ in 1 2 3; do
    { time "$timings" profile "$1" >/dev/null; } 2>&1
  done | sort -n | sed -n 2p
}

# The operations of the 64 ways and the sum of their cost factors in millionths, after the rules of the language.
carried_out=$({ "$timings" profile 64 listing; echo ways; "$timings" profile 64 vectors; } | awk '
  function push(n) { stack[++height] = n }
  function pop() { return stack[height--] }

  # What an operator makes of two numbers of millionths.
  function made(operator, a, b) {
    if (operator == "xor") return ((a != 0) != (b != 0)) * 1000000
    if (operator == "multiply") return int(a * b / 1000000)
    if (operator == "divide") return int(a * 1000000 / b)
    if (operator == "add") return a + b
    if (operator == "sub") return a - b
    if (operator == "max") return a > b ? a : b
    if (operator == "min") return a < b ? a : b
    if (operator == "equal") return (a == b) * 1000000
    if (operator == "greater") return (a > b) * 1000000
    if (operator == "lesser") return (a < b) * 1000000
    print "unknown operation: " operator > "/dev/stderr"
    exit failed = 1
  }

  # Whether the number of a tag is among those that a look asks for.
  function looked(words,   parts, count, i) {
    count = split(words, parts, " ")
    for (i = 3; i <= count; i++)
      if (parts[i] == number[place[parts[2]]]) return 1000000
    return 0
  }

  # Carries out the operations of a section: how many they were.
  function run(section,   at, done, words, word, b) {
    height = 0
    for (at = 0; at < length_of[section]; done++) {
      words = operation[section, at++]
      split(words, word, " ")
      if (word[1] == "num") push(int(word[2] * 1000000 + (word[2] < 0 ? -0.5 : 0.5)))
      else if (word[1] == "get") push(value[word[2], word[3]])
      else if (word[1] == "look") push(looked(words))
      else if (word[1] == "not") push((pop() == 0) * 1000000)
      else if (word[1] == "bool") push((pop() != 0) * 1000000)
      else if (word[1] == "jumpzero") { if (pop() == 0) at = word[2] }
      else if (word[1] == "jump") at = word[2]
      else if (word[1] == "set") value[section, word[2]] = pop()
      else { b = pop(); push(made(word[1], pop(), b)) }
    }
    return done
  }

  BEGIN {
    split("reversedirection highway oneway bicycle junction route_bicycle_rcn", tag, " ")
    for (i in tag) place[tag[i]] = i
  }
  $1 == "section" { section = $2; next }
  $1 == "ways" { section = ""; run("global"); next }
  section != "" {
    text = $0
    sub(/^[0-9]+ /, "", text)
    operation[section, length_of[section]++] = text
    next
  }
  {
    for (i = 1; i <= NF; i++) number[i] = $i
    total += run("way")
    sum += value["way", "costfactor"]
  }
  END { if (!failed) printf "%.0f %.0f\n", total, sum }')
read -r operations sum <<<"$carried_out"
printed=$("$timings" profile 64)
case $printed in
*" of $sum millionths") ;;
*)
  echo "the program prints \"$printed\", but the sum is ${sum:-unknown}"
  exit 1
  ;;
esac

count=${1:-1000000}
awk -v all="$(seconds "$count")" -v none="$(seconds 0)" -v count="$count" -v operations="$operations" 'BEGIN {
  each = operations / 64
  time = (all - none) * 1000000000 / count
  printf "%d evaluations: %.1f ns each, %.2f ns an operation, %.2f operations each\n", count, time, time / each, each
}'
