#!/bin/sh
# Times `acl make` at 2,000 and at 20,000 lines, on the proved build, and says how many lines a second it runs and how many
# times as long the longer run takes. Give the program's path and a number whose script is run to its end.
# Run it on a machine that does nothing else.
set -eu

program=${1:?usage: bench/make.sh PROGRAM [NUMBER]}
number=${2:-1}

seconds() {
    start=$(date +%s%N)
    "$program" make "$number" 4 "$1" > /dev/null
    end=$(date +%s%N)
    echo $((end - start))
}

short=$(seconds 2000)
long=$(seconds 20000)
awk -v short="$short" -v long="$long" 'BEGIN {
    printf "2000 lines: %d lines a second\n", 2000 * 1e9 / short
    printf "20000 lines: %d lines a second\n", 20000 * 1e9 / long
    printf "20000 lines take %.2f times as long as 2000\n", long / short
}'
