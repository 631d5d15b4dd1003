#!/bin/sh
# Restores every dump of a folder on a cluster under Slurm, as one job array of N tasks, of which each takes every N-th dump.
#
#     sbatch --array=0-99 slurm.sh NETLIST FOLDER LINES
#
# The array begins at 0. To run some of its tasks again, say how many there were: TASKS=100 sbatch --array=17,31 slurm.sh ..
# Each task writes a line a dump, as folder.sh does, to LINES/TASK.lines; `cat LINES/*.lines | sort` has all of them.
# PROGRAM is the built program and ONE the script one.sh, both on a file system that the nodes share; by default they lie in the
# folder where sbatch is called (Slurm copies this script, so it does not know where it came from).
#SBATCH --job-name=srestore
#SBATCH --ntasks=1
#SBATCH --cpus-per-task=1
#SBATCH --mem=1G
#SBATCH --time=01:00:00
set -u
program=${PROGRAM:-${SLURM_SUBMIT_DIR:-.}/srestore}
tasks=${TASKS:-$((${SLURM_ARRAY_TASK_MAX:-0} + 1))}
one=${ONE:-${SLURM_SUBMIT_DIR:-.}/one.sh}
fail() {
    echo "slurm.sh: $1" >&2
    exit 2
}

[ $# -eq 3 ] || fail 'usage: sbatch --array=0-99 slurm.sh NETLIST FOLDER LINES'
[ -n "${SLURM_ARRAY_TASK_ID-}" ] || fail 'this is no task of a job array: call it by sbatch --array=0-99'
for file in "$program" "$one"; do
    [ -x "$file" ] || fail "$file is not there"
done
mkdir -p "$3" || fail "$3 cannot be made"
find "$2" -maxdepth 1 -type f \( -name '*.dump' -o -name '*.dump.gz' \) | LC_ALL=C sort |
    awk -v task="$SLURM_ARRAY_TASK_ID" -v tasks="$tasks" '(NR - 1) % tasks == task' |
    while IFS= read -r dump; do
        "$one" "$program" "$1" "$dump"
    done >"$3/$SLURM_ARRAY_TASK_ID.lines"
