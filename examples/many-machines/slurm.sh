#!/bin/sh
# Counts the words of a file by Slurm: a task a part, and a job behind them that writes the answer to the folder.
#
#   slurm.sh FILE PARTS FOLDER
#
# A task that is put in the queue again writes the same file. All nodes see the file and the folder.
set -eu
file=$1 parts=$2 folder=$3
mkdir -p "$folder"
word_counts plan "$file" --parts "$parts" >"$folder/plan"
part="set -- \$(sed -n \${SLURM_ARRAY_TASK_ID}p '$folder/plan')
    word_counts part '$file' --from \$1 --to \$2 >'$folder/part.'\$SLURM_ARRAY_TASK_ID.new
    mv '$folder/part.'\$SLURM_ARRAY_TASK_ID.new '$folder/part.'\$SLURM_ARRAY_TASK_ID"
tasks=$(sbatch --parsable --requeue --array="1-$parts" --output="$folder/task-%a.log" --wrap "$part")
sbatch --parsable --dependency="afterany:$tasks" --output="$folder/finish.log" --wrap "cat '$folder'/part.*[0-9] | word_counts finish >'$folder/answer'"
