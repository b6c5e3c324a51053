#!/bin/sh
# Times runs in which so many children load and store, each a declared tag of its own, 400,000 accesses each: where the
# processors are there, as many children take as long as one. Of each number it takes the best of five runs.
# usage: bench/apart.sh [N..]     1, 2, 3 and 4 children, if none is named
# The program is the one that bin/wedge builds, or $WEDGE.
root=$(cd "$(dirname "$(readlink -f "$0")")/.." && pwd) || exit 1
wedge=${WEDGE:-$root/bin/wedge}
work=$(mktemp -d) || exit 1
trap 'rm -rf "$work"' EXIT
[ $# -gt 0 ] || set -- 1 2 3 4
rounds=200000
fuel=$((rounds * 4 + 100))

# A partition in which so many children are started. A child's argument is where the window of its tag begins.
partition() {
    printf 'fuel = %d\nuser = 0\nroot = "/"\nentry = "main"\ntext = """\n' "$(($1 * fuel + 20000))"
    printf '.proc main\n    svc  sc_new\n'
    for tag in $(seq "$1"); do
        printf '    li   a0, 0\n    li   a1, tag_t%d\n    li   a2, 3\n    svc  sc_mem_add\n' "$tag"
    done
    for tag in $(seq "$1"); do
        printf '    li   a0, 0\n    la   a1, kid\n    li   a2, seg_t%d\n    li   a3, %d\n    svc  sthread_create\n' "$tag" "$fuel"
    done
    for tag in $(seq "$1"); do
        printf '    li   a0, %d\n    svc  sthread_join\n' "$tag"
    done
    cat << END
    li   a0, 0
    svc  exit
.proc kid
    mv   t0, a0
    li   s0, $rounds
again:
    lw   a0, 0(t0)
    sw   a0, 4(t0)
    addi s0, s0, -1
    bnez s0, again
    li   a0, 0
    svc  exit
"""
END
    for tag in $(seq "$1"); do
        printf '[[tag]]\nname = "t%d"\npages = 1\nright = "ReadWrite"\n' "$tag"
    done
}

for n; do
    partition "$n" > "$work/apart.toml"
    "$wedge" build "$work/apart.toml" > "$work/apart.wedge" || exit 1
    : > "$work/times"
    for _ in 1 2 3 4 5; do
        before=$(date +%s.%N)
        "$wedge" run "$work/apart.wedge" > "$work/report" || exit 1
        after=$(date +%s.%N)
        [ "$(grep -c 'kid exited 0' "$work/report")" -eq "$n" ] || exit 1
        echo "$before $after" >> "$work/times"
    done
    awk -v n="$n" '{ s = $2 - $1; if (NR == 1 || s < best) best = s } END { printf "%4d children %7.3f s\n", n, best }' "$work/times"
done
