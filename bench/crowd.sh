#!/bin/sh
# Times runs in which so many children load and store one declared tag, 200,000 accesses in all.
# usage: bench/crowd.sh [N..]     1, 2, 4, 8, 16, 32, 64 and 255 children, if none is named
# The program is the one that bin/wedge builds, or $WEDGE.
root=$(cd "$(dirname "$(readlink -f "$0")")/.." && pwd) || exit 1
wedge=${WEDGE:-$root/bin/wedge}
work=$(mktemp -d) || exit 1
trap 'rm -rf "$work"' EXIT
[ $# -gt 0 ] || set -- 1 2 4 8 16 32 64 255
for n; do
    rounds=$((100000 / n))
    fuel=$((rounds * 4 + 100))
    cat > "$work/crowd.toml" << END
fuel = $((n * fuel + 20000))
user = 0
root = "/"
entry = "main"
text = """
.proc main
    svc  sc_new
    li   a1, tag_box
    li   a2, 3
    svc  sc_mem_add
    li   s1, $n
start:
    li   a0, 0
    la   a1, kid
    li   a2, 0
    li   a3, $fuel
    svc  sthread_create
    addi s1, s1, -1
    bnez s1, start
    li   s1, $n
join:
    mv   a0, s1
    svc  sthread_join
    addi s1, s1, -1
    bnez s1, join
    li   a0, 0
    svc  exit
.proc kid
    li   t0, seg_box
    li   s0, $rounds
again:
    lw   a0, 0(t0)
    sw   a0, 4(t0)
    addi s0, s0, -1
    bnez s0, again
    li   a0, 0
    svc  exit
"""
[[tag]]
name = "box"
pages = 1
right = "ReadWrite"
END
    "$wedge" build "$work/crowd.toml" > "$work/crowd.wedge" || exit 1
    before=$(date +%s.%N)
    "$wedge" run "$work/crowd.wedge" > "$work/report" || exit 1
    [ "$(grep -c 'kid exited 0' "$work/report")" -eq "$n" ] || exit 1
    awk -v n="$n" -v from="$before" -v to="$(date +%s.%N)" 'BEGIN { printf "%4d children %7.2f s\n", n, to - from }'
done
