#!/bin/sh
#SBATCH --job-name=kimorefo --output=/dev/null --cpus-per-task=1
# sbatch --array=0-99 slurm.sh PROGRAM SCENES RESULTS [WORDS]: plans SCENES/*.scene by WORDS (`plan 1` if left out) by 100
# tasks of Slurm, each of which takes every hundredth. RESULTS/NAME.report has what the program writes, also of a refused
# scene. A scene has $LIMIT seconds, 3600 if that is not set; after them its report is empty. Submitted again with the
# same words, it does what is left, and what was killed. All nodes see the three paths.
set -eu
# With gaps between the numbers of the tasks some scenes would be nobody's.
[ $((SLURM_ARRAY_TASK_MAX - SLURM_ARRAY_TASK_MIN + 1)) -eq "$SLURM_ARRAY_TASK_COUNT" ] || exit 2
mkdir -p "$3"
number=0 failed=0
for scene in "$2"/*.scene; do
    number=$((number + 1)) report=${scene##*/} report=$3/${report%.scene}.report
    [ $((number % SLURM_ARRAY_TASK_COUNT + SLURM_ARRAY_TASK_MIN)) -eq "$SLURM_ARRAY_TASK_ID" ] || continue
    [ ! -e "$report" ] || continue
    status=0
    timeout "${LIMIT:-3600}" "$1" ${4:-plan 1} < "$scene" > "$report.part" || status=$?
    case $status in 0|1|3|4|8|124) mv "$report.part" "$report" ;; *) failed=$status ;; esac
done
exit $failed
