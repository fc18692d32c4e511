#!/usr/bin/env bash
# Copies the library into another repository: the crate mohairjade and those that are named, all that they stand on, and their lines of crates.txt. Where
# they are there, they are replaced. Nothing else of the repository is touched.
# Words: checks/vendor.sh FOLDER [CRATE..]
set -eu
from=$(cd "$(dirname "$0")/.." && pwd)
to=${1:?the folder of a repository}
shift
mkdir -p "$to/crates"
lines=$to/crates.txt
touch "$lines"
[ -e "$to/HANDLES" ] || cp "$from/HANDLES" "$to/HANDLES"

# a crate stands on those before it, so from the last line on each is known to be needed before its own line comes
names=$(tac "$from/crates.txt" | awk -v named="mohairjade $*" '
    BEGIN { count = split(named, crates, " "); while (count) needed[crates[count--]] }
    !/^#/ && split($0, part, ": ?") && part[1] in needed { count = split(part[2], crates, " "); while (count) needed[crates[count--]]; print part[1] }' | tac)
kept=$(mktemp)
trap 'rm -f "$kept"' EXIT
{
    for name in $names; do
        grep -B 1 "^$name:" "$from/crates.txt"
    done
    # what stands there beside the library's crates and the comments on them
    awk -v names="$names" '
        BEGIN { count = split(names, all, "\n"); while (count) library[all[count--]] }
        /^#/ { comment = comment $0 "\n"; next }
        { split($0, part, ":"); if (!(part[1] in library)) printf "%s%s\n", comment, $0; comment = "" }' "$lines"
} > "$kept"
cp "$kept" "$lines"
for name in $names; do
    rm -rf "$to/crates/$name"
    mkdir "$to/crates/$name"
    for part in src specs proofs; do
        [ ! -d "$from/crates/$name/$part" ] || cp -r "$from/crates/$name/$part" "$to/crates/$name/"
    done
done
