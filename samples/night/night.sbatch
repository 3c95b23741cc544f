#!/bin/sh
# The night of all customers in `folders` on a cluster. The numbers of the array are lines of that file.
#     sbatch --array=1-"$(grep -c '' folders)" night.sbatch
#     sbatch --array=1-1000 --export=ALL,DAYS=100 night.sbatch        a hundred customers in each task
# A task may be requeued, or submitted again, at any time: a day that is done isn't done again.
#SBATCH --job-name=night
#SBATCH --ntasks=1
#SBATCH --cpus-per-task=1
#SBATCH --mem=100M
#SBATCH --time=60
#SBATCH --requeue
#SBATCH --open-mode=append
#SBATCH --output=night.out
days=${DAYS:-1}
last=$((SLURM_ARRAY_TASK_ID * days))
sed -n "$((last - days + 1)),${last}p" folders | {
    worst=0
    while IFS= read -r folder || [ -n "$folder" ]; do
        ./one "$folder" "${RULES:-night.rules}" < /dev/null || worst=$?
    done
    exit $worst
}
