#!/bin/bash
#SBATCH --ntasks=1
#SBATCH --requeue
#SBATCH --open-mode=append
# Builds a table on a Slurm cluster, slice by slice. Begin the journal (icotable begin), then in its folder
#   sbatch build.sbatch
# A collector puts the slab files that are there into the journal, submits an array of tasks for the slabs that are
# missing from the current slice, and itself once more behind the array. When the journal is whole it writes the table.
# Killed, requeued or submitted twice, any of it: what is in the journal stays, and the rest is sampled again. Where the
# chain was broken, submit it anew. A table that is there already is never replaced by another one: the job stops with
# status 1. What these name is in the folder of the submission or absolute, and is the same on every node:
journal=${JOURNAL:-build.journal} # begun
table=${TABLE:-table.icotable}    # what is written in the end
icotable=${ICOTABLE:-icotable}    # the tool
sample=${SAMPLE:-sample_slab}     # the task: sample JOURNAL FOLDER SLICE LEVEL TASK
tries=${TRIES:-5}                 # how often in a row the same slabs are asked for before the chain gives up
name=${NAME:-icotable}            # of the jobs; another one for each build that runs at the same time
meshes=${MESHES:-}                # the mesh file of a journal over other meshes than the library's own
# What sbatch is called with, words with spaces between them: account, partition, memory, time. The first collector is
# submitted by hand, with the same options.
read -r -a task_options <<<"${TASK_OPTIONS:-}"       # as --partition=long --mem=4G --time=2:00:00
read -r -a collect_options <<<"${COLLECT_OPTIONS:-}" # as --partition=short --mem=16G --time=0:30:00
set -euo pipefail
# The folder of the slab files has the id of the build in its name, so that no other build finds them there.
status=0
id=$("$icotable" status --id "$journal") || status=$?
if [ $status -gt 1 ]; then
    printf '%s\n' "$id"
    exit $status
fi
[ $status -eq 0 ] || id= # a journal of version 1 has none
slabs=${SLABS:-slabs${id:+-$id}}
mkdir -p "$slabs"

if [ "${1:-collect}" = task ]; then
    exec "$sample" "$journal" "$slabs" "$2" "$3" "$SLURM_ARRAY_TASK_ID"
fi
before=${2:-} count=${3:-0}

# finish: the table under another name first. One that is there already has to have the same bytes.
finish() {
    local new=$table.new.$SLURM_JOB_ID
    rm -f "$new" "$new.meta" "$new.mesh"
    "$icotable" replay ${meshes:+--meshes "$meshes"} "$journal" -o "$new"
    if [ -e "$table" ] && ! cmp -s "$new" "$table"; then
        printf 'build: %s is there already and is another table; that of %s is %s\n' "$table" "$journal" "$new"
        exit 1
    fi
    [ ! -e "$new.mesh" ] || mv -f "$new.mesh" "$table.mesh"
    mv -f "$new" "$table"
    mv -f "$new.meta" "$table.meta"
    printf 'build: %s is the table of %s\n' "$table" "$journal"
}

status=0
said=$("$icotable" collect ${meshes:+--meshes "$meshes"} "$journal" "$slabs") || status=$?
printf '%s\n' "$said"
if [ $status -eq 0 ]; then
    finish
    exit
fi
[ $status -eq 1 ] || exit $status
if [ -e "$table" ]; then
    printf 'build: %s is there already and %s is not whole: it is the table of another build\n' "$table" "$journal"
    exit 1
fi
read -r _ slice _ level _ _ _ missing < <(tail -n 1 <<<"$said")

count=$([ "$before" = "$slice:$missing" ] && echo $((count + 1)) || echo 1)
if [ "$count" -gt "$tries" ]; then
    printf 'build: slabs %s of slice %s were asked for %s times and are still missing\n' "$missing" "$slice" "$tries"
    exit 1
fi
# A collector that is requeued finds what it has submitted already, and does not submit it twice.
if squeue --me --noheader --format=%A --name="$name-collect" --states=PENDING,RUNNING | grep -vx "$SLURM_JOB_ID"; then
    printf 'build: another collector of this build is there and goes on\n'
    exit
fi
tasks=$(squeue --me --noheader --format=%F --name="$name-task" | sort -u | paste -sd:)
if [ -z "$tasks" ]; then
    tasks=$(sbatch --parsable --job-name="$name-task" ${task_options[@]+"${task_options[@]}"} --array="$missing" "$0" \
        task "$slice" "$level")
fi
sbatch --job-name="$name-collect" ${collect_options[@]+"${collect_options[@]}"} --dependency="afterany:$tasks" "$0" \
    collect "$slice:$missing" "$count"
