#!/bin/sh
# tools/archive/cluster/archive.sbatch: a task of an array of jobs by Slurm, which runs one part of an archive.
#
#   cd FOLDER; sbatch --array=0-LAST .../archive.sbatch SIZE JOB
#
# Task K runs the configurations of run/list from the one at K * SIZE on, SIZE of them, by JOB, which is tools/archive/job;
# tools/archive/cluster/submit writes the list, counts the tasks and gives these words. A task whose machine fails is put
# into the queue again, and then passes over what it had done.
#
#SBATCH --job-name=archive
#SBATCH --ntasks=1
#SBATCH --cpus-per-task=1
#SBATCH --requeue
#SBATCH --open-mode=append
#SBATCH --output=run/task-%a.log
set -u
# (a task may still be at work on a machine that was given up, so each of its uses has a name of its own)
export ATTEMPT="$SLURM_JOB_ID.${SLURM_RESTART_COUNT:-0}"
first=$((SLURM_ARRAY_TASK_ID * $1 + 1))
sed -n "${first},$((first + $1 - 1))p" run/list | xargs -- "$2" .
