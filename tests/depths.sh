#!/bin/sh
# Tests that the built program parses nested parts up to their limits, reports deeper ones as errors, and copes with a whole document of them. Its last
# line is 'N passed, M failed'.
#
#   tests/depths.sh PROGRAM
. "$(dirname -- "$0")/checks.sh"
program=${1:?the program, with its whole path}
cd "$work" || exit 1

# nested BEFORE OPEN MIDDLE CLOSE TIMES: makes a document of what comes before, and the middle so many times between the other two.
nested() {
  awk -v before="$1" -v first="$2" -v middle="$3" -v last="$4" -v times="$5" 'BEGIN {
    printf "version 1.1\n%s", before
    for (i = 0; i < times; i++) printf "%s", first
    printf "%s", middle
    for (i = 0; i < times; i++) printf "%s", last
  }' >w.wdl
  size=$(wc -c <w.wdl)
}

# answers NAME START SIZE CODE: the check of the document has this error, at SIZE bytes from START.
answers() {
  "$program" check w.wdl >out 2>err
  same "$1" "3 w.wdl:$2..$(($2 + $3)): $4" "$? $(cat out err)"
}

# parsed NAME: the document is parsed up to its end: a `]` that is put there is its error.
parsed() {
  printf ' ]' >>w.wdl
  answers "$1" $((size + 1)) 1 '110 Unexpected'
}

# too_deep NAME: the document is nested too deeply.
too_deep() {
  "$program" check w.wdl >out 2>err
  same "$1" '3 TooDeep' "$? $(cat out)$(sed 's/^w.wdl:[0-9]*\.\.[0-9]*: 111 //' err)"
}

echo "expressions and types"
# Each row has a limit, what comes before, and the parts of an expression or a type: before the innermost one, the innermost one, and behind it. It is
# parsed when it is nested as often as the limit says, but not once more, and not as often as a document of 1,048,576 bytes can hold it. Parts that add two
# levels have half the limit.
rows=0
while IFS='|' read -r limit before first middle last; do
  name="$first$middle$last"
  nested "$before" "$first" "$middle" "$last" "$limit"
  parsed "$limit times $name"
  nested "$before" "$first" "$middle" "$last" $((limit + 1))
  too_deep "$((limit + 1)) times $name"
  nested "$before" "$first" "$middle" "$last" $(((1048576 - 12 - ${#before} - ${#middle}) / (${#first} + ${#last})))
  too_deep "a whole document of $name"
  [ "$size" -gt 1048500 ] && [ "$size" -le 1048576 ] && pass || fail "the size of a document of $name: $size"
  rows=$((rows + 1))
done <<'END'
63|workflow w { Int x = |(|1|)
63|workflow w { Int x = |-|1|
63|workflow w { Int x = |[|1|]
63|workflow w { Int x = |"~{|1|}"
63|workflow w { Int x = ||a|.b
63|workflow w { Int x = ||a|[0]
63|workflow w { Int x = ||1|+1
63|workflow w { Int x = |{1:|1|}
63|workflow w { Int x = |(1,|1|)
63|workflow w { Int x = |S{a:|1|}
63|workflow w { Int x = |a(|1|)
63|workflow w { Int x = |if true then 1 else |1|
31|workflow w { Int x = |1+if true then 1 else |1|
31|workflow w { Int x = |-if true then 1 else |1|
31|workflow w { Int x = |1*(|1|)
31|workflow w { Int x = |-(|1|)
7|struct S { |Array[|Int|]
7|struct S { |Map[Int,|Int|]
7|struct S { |Pair[Int,|Int|]
END
same "rows" 19 "$rows"

echo "the place of what is too deep"
meta='workflow w { meta { a: '
decl='workflow w { if (b) { Int a = '
nested "$meta" '[' '' ']' 64
parsed "64 lists of meta"
nested "$meta" '[' '' ']' 65
answers "65 lists of meta" $((12 + ${#meta} + 64)) 1 '111 TooDeep'
nested "$meta" '{a:' '' '}' 65
answers "65 objects of meta" $((12 + ${#meta} + 64 * 3)) 1 '111 TooDeep'
nested "$decl" '[' '' ']' 64
parsed "64 lists, the last one empty"
nested "$decl" '[' '' ']' 65
answers "65 lists, the last one empty" $((12 + ${#decl} + 64)) 1 '111 TooDeep'
nested "$decl" '' c .c 63
parsed "63 members"
nested "$decl" '' c .c 64
answers "64 members" $((12 + ${#decl} + 1 + 63 * 2)) 1 '111 TooDeep'
nested 'workflow w { ' 'Array[' '' '' 2000
answers "types, each in the last one" $((12 + 13 + 8 * 6)) 5 '111 TooDeep'

echo "what has no limit of its own"
nested 'workflow w { ' 'Int a = 1 call b ' '' '' 2000
parsed "statements"
nested 'workflow w { ' 'if (a) { ' '' '} ' 2000
parsed "blocks"
nested 'workflow w { ' 'scatter (a in b) { ' '}' '' 2000
answers "blocks that are not closed" $((size - 1)) 1 '110 Unexpected'
nested 'workflow w { ' 'Int a = (' '' '' 2000
answers "declarations, each in the last one" $((12 + 13 + 9)) 3 '110 Unexpected'
# The check allows 24 blocks in one another. The parser has no such limit.
nested 'workflow w{' 'if(true){' '' '}' 100000
printf '}' >>w.wdl
answers "100,000 blocks" $((12 + 11 + 24 * 9)) $((size - 12 - 11 - 24 * 10)) '328 TooNested'
nested 'workflow w{' 'if(true){}if(true){' '' '}if(true){}' 34000
printf '}' >>w.wdl
answers "34,000 blocks, each between two others" $((12 + 11 + 24 * 19)) 10 '328 TooNested'
nested 'workflow w{Array[Int]x=[' '1,' ']}' '' 524269
same "a whole document of elements: its size" 1048576 "$size"
"$program" check w.wdl >out 2>err
same "a whole document of elements" '0 ok' "$? $(cat out err)"

conclude
