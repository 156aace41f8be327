#!/bin/sh
# sbatch --array=1-LINES night.sbatch PLAN CUT FOLDER
#     A Slurm job array: task i runs the part of PLAN that line i of the file CUT names, into
#     FOLDER (docs/NIGHT.md). Submitted again it runs only the parts that are not there.
#     Needs sweep-part in the PATH; PART may name it. Each task ends as sweep-part does; what tasks
#     say is in the file night-JOB.log.
#SBATCH --job-name=night
#SBATCH --ntasks=1
#SBATCH --cpus-per-task=1
#SBATCH --output=night-%A.log
#SBATCH --open-mode=append
#SBATCH --requeue
set -u
line=$(sed -n "${SLURM_ARRAY_TASK_ID}p" "$2")
if [ -z "$line" ]; then
    echo "night.sbatch: no line $SLURM_ARRAY_TASK_ID in $2" >&2
    exit 2
fi
# FIRST and COUNT are two words.
# shellcheck disable=SC2086
exec "${PART:-sweep-part}" "$1" $line "$3"
