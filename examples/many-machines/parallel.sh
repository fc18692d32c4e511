#!/bin/sh
# Counts the words of a file in parts, by GNU parallel.
#
#   parallel.sh FILE PARTS [OPTION..]     OPTION is one of parallel's
#
# Lines may come in any order. Where a part fails, `finish` says which parts are missing, and nothing is answered.
set -eu
file=$1 parts=$2
shift 2
word_counts plan "$file" --parts "$parts" |
    parallel --colsep ' ' -j 25% "$@" word_counts part "$file" --from '{1}' --to '{2}' |
    word_counts finish
