#!/bin/sh
# parallel.sh PROGRAM SCENES RESULTS [WORDS]: plans SCENES/*.scene by WORDS (`plan 1` if left out) with GNU parallel, one
# at a time on each processor. RESULTS/NAME.report has what the program writes, also of a refused scene. A scene has
# $LIMIT seconds, 3600 if that is not set; after them its report is empty. Called again with the same words, it does what
# is left, and what was killed. RESULTS/scenes names the scenes as they were at first, RESULTS/jobs is parallel's log.
set -eu
PROGRAM=$(readlink -f "$1") SCENES=$(readlink -f "$2") WORDS=${4:-plan 1} LIMIT=${LIMIT:-3600}
mkdir -p "$3"
RESULTS=$(readlink -f "$3")
export PROGRAM RESULTS WORDS LIMIT PARALLEL_SHELL=/bin/sh
if [ ! -e "$RESULTS/scenes" ]; then
    printf '%s\n' "$SCENES"/*.scene > "$RESULTS/scenes.part"
    mv "$RESULTS/scenes.part" "$RESULTS/scenes"
fi
exec parallel --joblog "$RESULTS/jobs" --resume-failed --retries 3 --arg-file "$RESULTS/scenes" '
    timeout "$LIMIT" "$PROGRAM" $WORDS < {} > "$RESULTS"/{/.}.part; status=$?
    case $status in 0|1|3|4|8|124) mv "$RESULTS"/{/.}.part "$RESULTS"/{/.}.report ;; *) exit $status ;; esac'
