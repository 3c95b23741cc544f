#!/bin/sh
# The morning of all customers in `folders` on a cluster: takes up the days that aren't done, by morning.rules. It may wait for the night:
#     night=$(sbatch --parsable --array=1-"$(grep -c '' folders)" night.sbatch)
#     sbatch --array=1-"$(grep -c '' folders)" --dependency=afterany:"$night" morning.sbatch
#SBATCH --job-name=morning
#SBATCH --ntasks=1
#SBATCH --cpus-per-task=1
#SBATCH --mem=100M
#SBATCH --time=60
#SBATCH --requeue
#SBATCH --open-mode=append
#SBATCH --output=morning.out
RULES=morning.rules
export RULES
# shellcheck source=/dev/null
. ./night.sbatch
