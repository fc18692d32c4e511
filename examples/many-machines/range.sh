#!/bin/sh
# Runs a pipeline file over a range in parts, by GNU parallel, and writes the answer of the whole.
#
#   range.sh PARTS FILE [OPTION..]        OPTION is one of parallel's
#
# The first line that can't be combined from the parts' answers, and all behind it, run in the second pipeline, over the parts' lists.
# What is wrong with FILE is told before a part runs, in pstream's words and with its status.
set -eu
fail() {
    echo "range.sh: $1" >&2
    exit 2
}
[ $# -ge 2 ] || fail 'usage: range.sh PARTS FILE [OPTION..]'
parts=$1 file=$2
shift 2
case $parts in '' | *[!0-9]* | 0* | ??????*) fail 'PARTS has to be a number from 1 to 99999' ;; esac
version=$(sed -n 1p "$file") source=$(sed -n 2p "$file")
case $source in range\ *) ;; *) fail "line 2 of $file has to be a range" ;; esac
items=$(printf '%s\n' "$version" "$source" count | pstream /dev/stdin)
{ echo "$version"; echo range 0 0; sed 1,2d "$file"; } | pstream /dev/stdin >/dev/null

folder=$(mktemp -d)
trap 'rm -r "$folder"' EXIT
trap 'exit 1' HUP INT TERM
whole='^(limit|skip|takewhile|dropwhile|distinct|tolist|groupby|partition|teeing|tomap|tomapstrict)( |$)'
sed 1,2d "$file" | sed -E "/$whole/,\$d" >"$folder/each"
sed 1,2d "$file" | sed -nE "/$whole/,\$p" >"$folder/rest"
[ ! -s "$folder/rest" ] || echo tolist >>"$folder/each"

start=${source#range } part=0
start=${start%% *}
while [ "$part" -lt "$parts" ]; do
    end=$((start + items / parts + (part < items % parts)))
    { echo "$version"; echo "range $start $end"; cat "$folder/each"; } >"$folder/$part"
    echo "$folder/$part"
    start=$end part=$((part + 1))
done >"$folder/parts"
parallel -k -j 25% --halt now,fail=1 "$@" pstream <"$folder/parts" >"$folder/answers"

# the second pipeline, which makes one answer of the parts'
{
    echo "$version"
    terminal=$(sed -n '$p' "$folder/each")
    case $terminal in
    allmatch\ * | nonematch\ * | anymatch\ *)
        echo lines $(wc -l <"$folder/answers")
        cat "$folder/answers"
        echo "$(echo "${terminal%% *}" | sed 's/nonematch/allmatch/') starts true"
        ;;
    *)
        # what `Optional[ ]` and `[ ]` hold; `Optional.empty` has no number
        echo numbers $(tr -cs '0-9-' ' ' <"$folder/answers")
        if [ -s "$folder/rest" ]; then cat "$folder/rest"; else echo "$terminal" | sed 's/^count$/sum/'; fi
        ;;
    esac
} | pstream /dev/stdin
