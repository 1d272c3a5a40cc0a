#!/usr/bin/env bash
# Calls the program as a user does, and compares its exit status, its output and its standard error with
# what is written down. The program is named by the first word.
set -eu
program=$(realpath "$1")
cd "$(dirname "$0")"
. ./generated.sh
work=$(mktemp -d)
trap 'rm -rf "$work"' EXIT

# called NAME STATUS OUTPUT ERROR INPUT WORD..: OUTPUT is a file, and ERROR the words on standard error.
called() {
  local name=$1 status=$2 output=$3 error=$4 input=$5 found=0
  shift 5
  "$program" "$@" <"$input" >"$work/output" 2>"$work/error" || found=$?
  printf '%s' "${error:+$error$'\n'}" >"$work/wanted"
  if [ "$found" != "$status" ]; then
    echo "$name: ended with $found, not $status"
    exit 1
  fi
  diff "$output" "$work/output"
  diff "$work/wanted" "$work/error"
  echo "$name: as written down"
}

# The first call may build the program, which it tells on standard error.
"$program" >"$work/output" 2>&1 || true

: >"$work/nothing"

# Each example has its input, the words after the program's name, and its replies; so has each row.
for input in *.txt rows/*.txt; do
  name=${input%.txt}
  read -ra words <"$name.words"
  called "$name" 0 "$name.out" "" "$input" "${words[@]}"
done

for name in lengths_at_their_borders longest_lines most_transactions; do
  "$name" >"$work/input"
  "${name}_replies" >"$work/replies"
  called "$name" 0 "$work/replies" "" "$work/input" run
done

# The same transactions answered from rows alone, and from files and the rows behind them.
transactions 1000 >"$work/input"
transactions_replies >"$work/replies"
called "transactions over rows" 0 "$work/replies" "" "$work/input" run
transactions 50 >"$work/input"
"$program" run --step 8 <"$work/input" | grep -v '^file \|^end$' >"$work/output"
diff "$work/replies" "$work/output"
echo "transactions over files and rows: as written down"

called "the step in one word" 0 one_step.out "" one_step.txt run --step=4
called "zeros in front" 0 one_step.out "" one_step.txt run --step 0000000004
called "the largest step" 0 first_path.out "" first_path.txt run --step=4294967296
called "no input" 0 "$work/nothing" "" "$work/nothing" run
while read -r words; do
  read -ra list <<<"$words"
  called "no command: $words" 1 "$work/nothing" "aggregator: usage" first_path.txt "${list[@]}"
done <<'END'

serve
fly
--step=4
run --
run --step
run --step=
run --step 0
run --step 4294967297
run --step 00000000004
run --step 4x
run --step -1
run --step 1 --step=1
run --step=4 --step=4
run --workers=1
run --workers 17
run 4
--step 1 run
END
called "an empty word" 1 "$work/nothing" "aggregator: usage" first_path.txt ""
called "an empty value" 1 "$work/nothing" "aggregator: usage" first_path.txt run --step ""
called "a word that is no text" 1 "$work/nothing" "aggregator: usage" first_path.txt run $'\xff'

# An output that is closed at once counts as a fault of the sink.
found=0
"$program" run <first_path.txt >&- 2>"$work/error" || found=$?
printf 'aggregator: sink fault\n' >"$work/wanted"
diff "$work/wanted" "$work/error"
if [ "$found" != 4 ]; then
  echo "a closed output: ended with $found, not 4"
  exit 1
fi
echo "a closed output: a fault of the sink"

# A line goes over one pipe only after the reply to the one before has come over the other.
mkfifo "$work/in" "$work/out"
"$program" run <"$work/in" >"$work/out" &
client=$!
exec 7>"$work/in" 8<"$work/out"
while read -r line <&5 && read -r reply <&6; do
  printf '%s\n' "$line" >&7
  if ! read -r -t 20 found <&8 || [ "$found" != "$reply" ]; then
    echo "two pipes: to '$line' came '${found-}', not '$reply'"
    kill "$client" 2>/dev/null || true
    exit 1
  fi
done 5<first_path.txt 6<first_path.out
exec 7>&-
wait "$client"
echo "two pipes: each reply before the next line"
