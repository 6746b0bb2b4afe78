#!/bin/sh
# Runs the greatest scene: 262,143 marks that make one branch of 262,144 nodes, four rows of a room of 65,536 columns.
# It takes two to three minutes and 25 MB, which is too long for a test; run it by hand: examples/greatest.sh

root=$(dirname -- "$(readlink -f -- "$0")")/..
scene=$(mktemp) && report=$(mktemp) || exit 1
trap 'rm -f "$scene" "$report"' EXIT

awk 'BEGIN {
    print "prrt 1\nroom 65535 12\nstart 0 0\ngoal 0 12 0 12\nstep 4"
    for (x = 1; x <= 65535; x++) print "mark", x, 0
    for (x = 65535; x >= 0; x--) print "mark", x, 4
    for (x = 0; x <= 65535; x++) print "mark", x, 8
    for (x = 65535; x >= 0; x--) print "mark", x, 12
}' > "$scene"

"$root/prrt" plain < "$scene" > "$report"

# 65,535 edges of 256 in each row, and three of 1,024 between the rows
if [ "$(head -n 1 "$report")" = 'path 262144 cost 67110912' ] &&
    [ "$(sed -n 262145p "$report")" = '0 12' ] &&
    [ "$(tail -n 1 "$report")" = 'nodes 262144 placed 262143 same 0 blocked 0' ]; then
    echo 'as expected'
else
    echo 'not as expected'
    exit 1
fi
