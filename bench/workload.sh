#!/bin/sh
# Compares the workload that `wedge gen N` makes with the text of its partition (docs/FORMATS.md), for each N from 1 to 200,
# or for those that are given: the partition is built and run, and the number of workers, actors, denials and entries, the
# value and the fuel of that run are compared with the line of `wedge gen N`. The entries are those of the run's schedule. The
# program is the one that bin/wedge builds, or $WEDGE. The status is 0 where nothing differs.
root=$(cd "$(dirname "$(readlink -f "$0")")/.." && pwd) || exit 1
wedge=${WEDGE:-$root/bin/wedge}
work=$(mktemp -d) || exit 1
trap 'rm -rf "$work"' EXIT

# The 64 words of the tag `input`, in little-endian hexadecimal.
input_of() {
    awk -v n="$1" 'BEGIN {
        for (i = 0; i < 64; i++) {
            word = (i * 2654435761 + n) % 4294967296
            for (k = 0; k < 4; k++) { printf "%02x", word % 256; word = int(word / 256) }
        }
    }'
}

# The partition of the workload of so many workers.
partition_of() {
    printf 'fuel = %d\nuser = 0\nroot = "/"\nentry = "main"\ntext = """\n' $((2020 * $1 + 100))
    cat << TEXT
.proc main
svc sc_new
mv s0, a0
li a1, tag_input
li a2, 2
svc sc_mem_add
li s1, $1
li s2, 0
more:
beqz s1, all
mv a0, s0
la a1, work
li a2, 0
li a3, 2000
svc sthread_create
addi s1, s1, -1
j more
all:
li s1, $1
li s3, 1
gather:
beqz s1, finish
mv a0, s3
svc sthread_join
add s2, s2, a0
addi s3, s3, 1
addi s1, s1, -1
j gather
finish:
mv a0, s2
svc exit
.proc work
li a0, 1
svc tag_new
mv s0, a2
li s1, 64
li s2, seg_input
li s3, 0
step:
beqz s1, last
lw t0, 0(s2)
add s3, s3, t0
sw s3, 0(s0)
addi s2, s2, 4
addi s1, s1, -1
j step
last:
li a0, 0
mv a1, sp
li a2, 0
svc fd_append
lw a0, 0(s0)
svc exit
"""
TEXT
    printf '[[tag]]\nname = "input"\npages = 1\nright = "Read"\nhex = "%s"\n' "$(input_of "$1")"
    printf '[[fd]]\nname = "out"\nkind = "append"\nbits = "append"\n'
}

# The line of a run with this report, in $work/report, and this schedule, in $work/schedule.
line_of() {
    awk -v workers="$1" -v entries="$(wc -l < "$work/schedule")" '
        /^actor / { actors++ }
        /^denied / { denials++ }
        /^actor 0 / { value = $4 == "exited" ? $5 : 0; fuel = $NF }
        END { printf "workers %d actors %d denials %d entries %d value %s fuel %s\n", workers, actors, denials, entries, value, fuel }
    ' "$work/report"
}

differing=0
[ $# -gt 0 ] || set -- $(seq 1 200)
for workers in "$@"; do
    partition_of "$workers" > "$work/part.toml"
    "$wedge" build "$work/part.toml" > "$work/image" || exit 1
    "$wedge" run "$work/image" --schedule > "$work/schedule" 2> "$work/report" || exit 1
    line_of "$workers" > "$work/wanted"
    "$wedge" gen "$workers" > "$work/said" || exit 1
    cmp -s "$work/wanted" "$work/said" && continue
    differing=$((differing + 1))
    echo "wedge gen $workers differs: its partition has"
    cat "$work/wanted"
    echo "and it says"
    cat "$work/said"
done
echo "$# workloads, $differing differ"
[ "$differing" -eq 0 ]
