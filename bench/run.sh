#!/bin/sh
# Measures the program: local instructions, shared accesses, a schedule printed and replayed, children started and joined,
# with much data too, gates entered, tags made and deleted, reading a large image, assembling a long text; and where python3
# is there, which bench/inputs.py needs, linking ELF files of many functions, and reading traces of many records.
# It prints the seconds that each takes and, where valgrind is there, the host instructions that an instruction
# of the program costs, and fails where that is more than its bound. The program is the one that bin/wedge builds, or $WEDGE.
root=$(cd "$(dirname "$(readlink -f "$0")")/.." && pwd) || exit 1
wedge=${WEDGE:-$root/bin/wedge}
# What that runs, once it is built: valgrind would count the instructions of the shell.
program=${WEDGE:-$root/crates/wedge/out/wedge}
work=$(mktemp -d) || exit 1
trap 'rm -rf "$work"' EXIT

# A partition: fuel and text.
partition() {
    printf 'fuel = %s\nuser = 0\nroot = "/"\nentry = "main"\ntext = """\n' "$1"
    cat
    printf '"""\n[[tag]]\nname = "box"\npages = 1\nright = "ReadWrite"\n'
    printf '[[fd]]\nname = "out"\nkind = "append"\nbits = "append"\n'
}

# What is done, how often, and the command.
measure() {
    what=$1
    count=$2
    shift 2
    before=$(date +%s.%N)
    "$@" > "$work/out" || exit 1
    after=$(date +%s.%N)
    awk -v what="$what" -v count="$count" -v from="$before" -v to="$after" \
        'BEGIN { s = to - from; printf "%-30s %9d in %7.3f s: %10.0f a second\n", what, count, s, count / s }'
}

# An endless loop of two instructions, which ends with the fuel.
printf '.proc main\nagain:\naddi a0, a0, 1\nj again\n' | partition 16777216 > "$work/local.toml"
"$wedge" build "$work/local.toml" > "$work/local.wedge" || exit 1
measure 'local instructions' 16777216 "$wedge" run "$work/local.wedge"

# Loads and stores of a tag, two of three instructions each a shared access.
printf '.proc main\nli t0, seg_box\nagain:\nlw a0, 0(t0)\nsw a0, 4(t0)\nj again\n' | partition 300002 > "$work/shared.toml"
"$wedge" build "$work/shared.toml" > "$work/shared.wedge" || exit 1
measure 'shared accesses' 200000 "$wedge" run "$work/shared.wedge"

# A million turns with their schedule, which is then replayed, and gives the same report.
printf '.proc main\nli t0, seg_box\nagain:\nlw a0, 0(t0)\nsw a0, 4(t0)\nj again\n' | partition 1500002 > "$work/turns.toml"
"$wedge" build "$work/turns.toml" > "$work/turns.wedge" || exit 1
measure 'turns, with their schedule' 1000000 "$wedge" run "$work/turns.wedge" --schedule 2> "$work/report"
mv "$work/out" "$work/schedule"
measure 'turns, replayed' 1000000 "$wedge" replay "$work/turns.wedge" "$work/schedule"
cmp "$work/out" "$work/report" || exit 1

# A hundred thousand children, one started and joined after another, and the same replayed.
{
    printf '.proc main\nsvc sc_new\nli s0, 100000\nagain:\nli a0, 0\nla a1, kid\nli a3, 10\nsvc sthread_create\n'
    printf 'svc sthread_join\naddi s0, s0, -1\nbnez s0, again\nsvc exit\n.proc kid\nsvc exit\n'
} | partition 5000000 > "$work/children.toml"
"$wedge" build "$work/children.toml" > "$work/children.wedge" || exit 1
measure 'children, one by one' 100000 "$wedge" run "$work/children.wedge" --schedule 2> "$work/report"
mv "$work/out" "$work/schedule"
measure 'children, replayed' 100000 "$wedge" replay "$work/children.wedge" "$work/schedule"
cmp "$work/out" "$work/report" || exit 1

# Ten thousand children, one started and joined after another, over so many pages of data, of which each writes one.
children_over() {
    {
        {
            printf '.proc main\nsvc sc_new\nli s0, 10000\nagain:\nli a0, 0\nla a1, kid\nli a3, 10\nsvc sthread_create\n'
            printf 'svc sthread_join\naddi s0, s0, -1\nbnez s0, again\nsvc exit\n.proc kid\nli t0, data_big\nsw t0, 0(t0)\nsvc exit\n'
        } | partition 500000
        printf '[[data]]\nname = "big"\nbase = 1048576\nhex = "'
        awk -v bytes="$(($1 * 4096))" 'BEGIN { for (k = 0; k < bytes; k++) printf "a5" }'
        printf '"\n'
    } > "$work/data.toml"
    "$wedge" build "$work/data.toml" > "$work/data.wedge" || exit 1
    measure "children over $1 pages of data" 10000 "$wedge" run "$work/data.wedge"
}
children_over 16
children_over 64
children_over 256

# 255 children that live at once over so many pages, of which each writes one: replayed by a schedule in which all are started
# before the first of them goes on. Where GNU time is there, its memory too.
living_at_once() {
    {
        {
            printf '.proc main\nsvc sc_new\nli s0, 255\nmore:\nli a0, 0\nla a1, kid\nli a3, 10\nsvc sthread_create\naddi s0, s0, -1\nbnez s0, more\n'
            printf 'li s0, 0\nagain:\naddi s0, s0, 1\nmv a0, s0\nsvc sthread_join\nli t0, 255\nbne s0, t0, again\nli a0, 0\nsvc exit\n'
            printf '.proc kid\nli t0, data_big\nsw t0, 0(t0)\nli a0, 0\nsvc exit\n'
        } | partition 500000
        printf '[[data]]\nname = "big"\nbase = 1048576\nhex = "'
        awk -v bytes="$(($1 * 4096))" 'BEGIN { for (k = 0; k < bytes; k++) printf "a5" }'
        printf '"\n'
    } > "$work/living.toml"
    "$wedge" build "$work/living.toml" > "$work/living.wedge" || exit 1
    awk 'BEGIN {
        for (k = 0; k < 510; k++) print "0"
        for (k = 1; k <= 255; k++) print "0." k
        for (k = 0; k < 256; k++) print "0"
    }' > "$work/living.schedule"
    measure "children at once over $1 pages" 255 "$wedge" replay "$work/living.wedge" "$work/living.schedule"
    if [ -x /usr/bin/time ]; then
        /usr/bin/time -f "  memory in all: %M KiB" "$program" replay "$work/living.wedge" "$work/living.schedule" 2>&1 > /dev/null | cat
    fi
}
living_at_once 16
living_at_once 64
living_at_once 256

# A hundred thousand runs of a gate, one entered after another, and the same replayed.
{
    printf '.proc main\nsvc sc_new\nla a1, gate\nli a2, 0\nli a3, 10\nli a4, 0\nsvc cgate_make\nli s0, 100000\nagain:\nla a0, gate\n'
    printf 'li a2, -1\nsvc cgate\naddi s0, s0, -1\nbnez s0, again\nsvc exit\n.proc gate\nsvc exit\n'
} | partition 5000000 > "$work/gates.toml"
"$wedge" build "$work/gates.toml" > "$work/gates.wedge" || exit 1
measure 'runs of a gate, one by one' 100000 "$wedge" run "$work/gates.wedge" --schedule 2> "$work/report"
mv "$work/out" "$work/schedule"
measure 'runs of a gate, replayed' 100000 "$wedge" replay "$work/gates.wedge" "$work/schedule"
cmp "$work/out" "$work/report" || exit 1

# A hundred thousand tags, one made and deleted after another, with a block placed and freed in each.
{
    printf '.proc main\nli s0, 100000\nagain:\nli a0, 1\nsvc tag_new\nmv s1, a0\nli a1, 100\nsvc smalloc\nsvc sfree\n'
    printf 'mv a0, s1\nsvc tag_delete\naddi s0, s0, -1\nbnez s0, again\nli a0, 0\nsvc exit\n'
} | partition 5000000 > "$work/tags.toml"
"$wedge" build "$work/tags.toml" > "$work/tags.wedge" || exit 1
measure 'tags, one by one' 100000 "$wedge" run "$work/tags.wedge"

# An image of nearly 16 MiB: 255 tags with 65,536 bytes of content each.
{
    printf 'WEDG\001\000\000\000\144\000\000\000\000\000\001\000\001\000\000\000\163\000\000\000'
    printf '\001\000\000\000\004\000main\000\000\001\000\000\000\001\000\000\000\000\000\377\000\000\000'
    tag=0
    while [ $tag -lt 255 ]; do
        printf '\004\000t%03d\020\000\000\000\003\000\000\000\000\000\001\000' $tag
        head -c 65536 /dev/zero
        tag=$((tag + 1))
    done
    printf '\000\000\000\000\000\000\000\000\000\000\000\000\001\000/'
} > "$work/large.wedge"
measure 'bytes of an image, read' "$(wc -c < "$work/large.wedge")" "$wedge" show "$work/large.wedge"

# A text of 100,000 lines.
awk 'BEGIN { print ".proc main"; for (k = 1; k < 100000; k++) print "addi a0, a0, 1" }' | partition 1 > "$work/long.toml"
measure 'lines, assembled' 100000 "$wedge" build "$work/long.toml"

# Procedures at each of 4,096 words, listed.
awk 'BEGIN { print ".proc main"; print "ret"; for (k = 1; k < 4096; k++) { printf ".proc p%d\n", k; print "ret" } }' | partition 1 > "$work/many.toml"
"$wedge" build "$work/many.toml" > "$work/many.wedge" || exit 1
measure 'procedures, listed' 4096 "$wedge" show "$work/many.wedge"

# So many records of a trace, of so many compartments: checked, and the sheets derived, what is accessed under a procedure that
# is in each chain, and who uses an item of one of the compartments.
measure_trace() {
    python3 "$root/bench/inputs.py" trace "$1" "$2" > "$work/trace" || exit 1
    measure "records, $2 names, derived" "$1" "$wedge" derive "$work/trace"
    measure "records, $2 names, by chain" "$1" "$wedge" analyze "$work/trace" accessed top
    measure "records, $2 names, by item" "$1" "$wedge" analyze "$work/trace" users tag:t0
}

if command -v python3 > /dev/null; then
    # Functions at 4,096 addresses, of which an image has no more procedures.
    printf 'fuel = 1\nuser = 0\nroot = "/"\n' > "$work/link.toml"
    for functions in 25000 50000 100000; do
        python3 "$root/bench/inputs.py" elf $functions 4096 > "$work/functions.elf" || exit 1
        measure 'functions, linked' $functions "$wedge" link "$work/functions.elf" "$work/link.toml"
    done
    measure_trace 100000 5000
    measure_trace 200000 10000
    measure_trace 450000 5000
fi

# Counts the host instructions of a command.
callgrind() {
    valgrind --tool=callgrind --callgrind-out-file="$work/callgrind" "$program" "$@" > /dev/null 2>&1 || exit 1
}

# Host instructions for each instruction of a loop: what a run with more fuel counts more than one with less, over
# the instructions that it makes more. What is counted, the name of the loop, less and more fuel, how many
# instructions that is, the bound, and the function whose instructions alone are counted, with those of what it calls; of
# all, if none is named. The loop is read from the standard input. With a last word `replay`, a replay of the run is counted
# in place of it.
count() {
    cat > "$work/loop"
    for fuel in "$3" "$4"; do
        partition "$fuel" < "$work/loop" > "$work/$2$fuel.toml"
        "$wedge" build "$work/$2$fuel.toml" > "$work/$2$fuel.wedge" || exit 1
        if [ "$8" = replay ]; then
            "$program" run "$work/$2$fuel.wedge" --schedule > "$work/$2.schedule" 2> /dev/null || exit 1
            callgrind replay "$work/$2$fuel.wedge" "$work/$2.schedule"
        else
            callgrind run "$work/$2$fuel.wedge"
        fi
        callgrind_annotate --inclusive=yes "$work/callgrind" > "$work/$2$fuel.count" || exit 1
    done
    awk -v what="$1" -v made="$5" -v bound="$6" -v of="${7:-PROGRAM TOTALS}" '
        index($0, of) && !seen[FILENAME]++ { gsub(",", "", $1); counts[++n] = $1 }
        END {
            each = (counts[2] - counts[1]) / made
            printf "%-38s %6.1f host instructions, at most %d\n", what, each, bound
            exit n != 2 || each <= 0 || each > bound
        }' "$work/$2$3.count" "$work/$2$4.count" || exit 1
}

command -v valgrind > /dev/null || exit 0

# Register instructions alone.
printf '.proc main\nagain:\naddi a0, a0, 1\nxor a1, a1, a0\nsub a2, a1, a0\nj again\n' |
    count 'a local instruction' local 100000 200000 100000 42 || exit 1

# A load and a store of private memory in ten instructions.
{
    printf '.proc main\nagain:\nlw a1, -8(sp)\naddi a0, a0, 1\nxor a2, a0, a1\nslli a3, a2, 3\nadd a4, a3, a0\n'
    printf 'sw a4, -8(sp)\nandi a5, a4, 255\nsub a6, a4, a5\naddi a0, a0, 3\nj again\n'
} | count 'the same, two in ten private' private 100000 200000 100000 53 || exit 1

# Loads and stores of a tag, 32 of 33 instructions: each is counted with its part of the jump. First with the audit and
# the report of the run, then what its threads alone do, and last a turn of a replay, on one thread and under no lock.
accesses() {
    printf '.proc main\nli t0, seg_box\nagain:\n'
    awk 'BEGIN { for (k = 0; k < 16; k++) print "lw a0, 0(t0)\nsw a0, 4(t0)" }'
    printf 'j again\n'
}
accesses | count 'a shared access' shared 33000 66000 32000 500 || exit 1
accesses | count 'a shared access, before the audit' shared 33000 66000 32000 500 gate_runner::runner::run_whole || exit 1
accesses | count 'a shared access, a turn of a replay' turn 33000 66000 32000 300 world_turns::turns::advance replay || exit 1
