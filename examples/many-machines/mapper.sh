#!/bin/sh
# The mapper of Hadoop Streaming, and what Spark's `pipe` runs: writes the line of each part of a file whose places are on standard input.
#
#   mapper.sh FILE <PLACES
set -eu
while read -r from to; do
    word_counts part "$1" --from "$from" --to "$to"
done
