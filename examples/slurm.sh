#!/bin/sh
#SBATCH --array=1-100 --mem=4G --time=04:00:00
# Checks one of the shares of a list of run files, and puts each one's TAP beside it: sbatch slurm.sh LIST
status=0
share=$1.$SLURM_ARRAY_TASK_ID
sed -n "$SLURM_ARRAY_TASK_ID~${SLURM_ARRAY_TASK_COUNT}p" "$1" > "$share"
while read -r file; do
    timeout 600 ebpf check "$file" > "$file.tap" < /dev/null || status=1
done < "$share"
exit $status
