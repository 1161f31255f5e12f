#!/bin/sh
# SPDX-License-Identifier: MIT OR Apache-2.0
#SBATCH --job-name=tsotest
#SBATCH --array=0-59
#SBATCH --time=00:30:00
# Runs a campaign as an array job: 256 shards a task, one after another. Submit it in this folder; the nodes share FOLDER:
#     FOLDER=/shared/campaign sbatch job.slurm
# README.md says more. The campaign of a FOLDER that has none yet, as SHARDS OPTION..:
campaign="15360 --cores 2 --ops 4 --addresses 2 --seed 0 --trials 1000000000"
each=256

set -eu
here=${SLURM_SUBMIT_DIR-$(dirname "$0")}
refuse() {
    echo "job.slurm: $*" >&2
    exit 1
}
[ -n "${FOLDER-}" ] || refuse "FOLDER is not set: submit it by FOLDER=/shared/campaign sbatch job.slurm"
[ -n "${SLURM_ARRAY_TASK_ID-}" ] || refuse "SLURM_ARRAY_TASK_ID is not set: submit it by sbatch, as an array"
[ -x "$here/shard" ] || refuse "there is no shard in $here: submit it in the folder examples/many_machines"

# What is said goes to a file of the task, and the one that Slurm made stays empty.
mkdir -p "$FOLDER/logs"
exec >> "$FOLDER/logs/$SLURM_ARRAY_TASK_ID.log" 2>&1
[ -z "${SLURM_ARRAY_JOB_ID-}" ] || rm -f "$here/slurm-${SLURM_ARRAY_JOB_ID}_$SLURM_ARRAY_TASK_ID.out"

if [ ! -s "$FOLDER/campaign" ]; then
    echo "$campaign" > "$FOLDER/campaign.$SLURM_ARRAY_TASK_ID"
    mv "$FOLDER/campaign.$SLURM_ARRAY_TASK_ID" "$FOLDER/campaign"
fi
read -r shards options < "$FOLDER/campaign"
first=$((SLURM_ARRAY_TASK_ID * each + 1)) last=$(((SLURM_ARRAY_TASK_ID + 1) * each))
[ "$last" -le "$shards" ] || last=$shards
echo "$(date): $(uname -n) runs shards $first to $last of $shards"
for k in $(seq "$first" "$last"); do
    # shellcheck disable=SC2086
    "$here/shard" "$FOLDER" "$shards" "$k" $options || exit 1
done
echo "$(date): done"
