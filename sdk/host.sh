#!/bin/sh
# Compiles each example in C for this machine, runs it without wedge (sdk/host.c), and compares what it writes to its
# streams with what the report says that it wrote as wedge ran it. The compiler is cc, or $CC.
root=$(cd "$(dirname "$(readlink -f "$0")")/.." && pwd) || exit 1
work=$(mktemp -d) || exit 1
trap 'rm -rf "$work"' EXIT
status=0
for name in checksum server notary; do
    "${CC:-cc}" -O2 -w -I"$root/sdk" -Dmain=program -o "$work/$name" \
        "$root/sdk/host.c" "$root/examples/$name.c" || exit 1
    "$work/$name" "$root/examples/$name.toml" > "$work/out" || exit 1
    grep '^stream ' "$root/examples/$name.report" > "$work/wanted" || exit 1
    if cmp -s "$work/out" "$work/wanted"; then
        echo "$name.c: here as in its report"
    else
        echo "$name.c: here otherwise than in its report"
        status=1
    fi
    cat "$work/out"
done
exit $status
