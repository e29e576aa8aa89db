#!/bin/sh
# Instructions per store call on messages of 128 bytes. Run from the repository's root; `rt run` in crates/store_cost builds
# the program first.
set -eu
program=crates/store_cost/out/store_cost
. bench/instructions.sh

line='%-7s %12s %6s %6s %8s %12s %6s\n'
printf "$line" store 'held beside' put copy discard put+discard clear
for kind in slot packed; do
    clear=$(per_turn $kind clear 0)
    put=$(($(per_turn $kind put_clear 0) - clear))
    both=$(per_turn $kind put_discard 0)
    all=$(per_turn $kind put_copy_discard 0)
    printf "$line" $kind 0 $put $((all - both)) $((both - put)) $both $clear
    both=$(per_turn $kind put_discard 27)
    all=$(per_turn $kind put_copy_discard 27)
    printf "$line" $kind 27 - $((all - both)) - $both -
done
