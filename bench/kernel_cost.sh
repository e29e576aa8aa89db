#!/bin/sh
# Instructions per turn of kernel calls. Run from the repository's root; `rt run` in crates/kernel_cost builds the program
# first.
set -eu
program=crates/kernel_cost/out/kernel_cost
. bench/instructions.sh

line='%-7s %10s %18s %8s %9s %9s\n'
printf "$line" store exchange 'blocking exchange' 'tick: 1' '12 tasks' '63 tasks'
for kind in slot packed; do
    printf "$line" $kind "$(per_turn $kind exchange 1)" "$(per_turn $kind blocking_exchange 2)" \
        "$(per_turn $kind tick 1)" "$(per_turn $kind tick 12)" "$(per_turn $kind tick 63)"
done
