#!/bin/sh
# The jobs of the study as an array of Slurm, in place of parallel: from the top of the repository, with `lift` on the path,
#     sbatch --wait examples/study/slurm.sh study
# Untried: no cluster was at hand.
#SBATCH --array=0-159
#SBATCH --cpus-per-task=1
#SBATCH --time=00:30:00
folder=$1
day=$(ls "$folder"/*-*.csv | sed -n "$((SLURM_ARRAY_TASK_ID / 4 + 1))p")
set -- exact short start waits
shift $((SLURM_ARRAY_TASK_ID % 4))
exec examples/study/one "$1" "$day"
