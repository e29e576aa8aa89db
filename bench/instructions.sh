# Instructions per turn of a program, counted by callgrind: the difference of two runs, divided by the turns
# between them. Used by the scripts beside it: set `program`, then `per_turn WORDS..` (the turns come last).
out=$(mktemp)
trap 'rm -f "$out"' EXIT

instructions() {
    valgrind --tool=callgrind --callgrind-out-file="$out" "$program" "$@" >/dev/null 2>&1
    sed -n 's/^summary: //p; s/^totals: //p' "$out" | head -n 1
}

per_turn() {
    few=$(instructions "$@" 1000)
    many=$(instructions "$@" 2000)
    echo $(((many - few) / 1000))
}
