#!/bin/sh
# Tries what is in sdk/, and the programs in C. Each line of sdk/test.transcript that begins with `$ ` is run, and what it
# prints, as lines that begin with `| `, and its status, if not 0, are compared with the lines behind it. Where the compilers are there that sdk/README.md
# names, the ELF files of the examples are made anew and compared to the byte, and linked with other names; where they are
# not, that is said, and counted as left out. The program is that of bin/wedge, or $WEDGE. The status is 0 where nothing
# differs.
root=$(cd "$(dirname "$(readlink -f "$0")")/.." && pwd) || exit 1
WEDGE=${WEDGE:-$root/crates/wedge/out/wedge}
export WEDGE
[ -x "$WEDGE" ] || { echo "sdk/test.sh: $WEDGE: no such program; a command of bin/wedge builds it, or \$WEDGE names another" >&2; exit 1; }
work=$(mktemp -d) || exit 1
trap 'rm -rf "$work"' EXIT
cd "$work" || exit 1
ln -s "$root/sdk" "$root/examples" . && mkdir bin && ln -s "$WEDGE" bin/wedge || exit 1
passed=0
failed=0
left_out=0

pass() { passed=$((passed + 1)); }
fail() { failed=$((failed + 1)); echo "DIFFERS: $1"; }
leave_out() { left_out=$((left_out + 1)); echo "left out: $1"; }
same() { if cmp -s "$2" "$3"; then pass; else fail "$1"; fi; }

# ---- the transcript: each command of it as it came out now
while IFS= read -r line; do
    case "$line" in
        '$ '*)
            printf '%s\n' "$line"
            sh -c "${line#??}" < /dev/null > said 2>&1
            status=$?
            sed 's/^/| /' said
            [ $status -eq 0 ] || echo "status $status"
            ;;
        '#'* | '') printf '%s\n' "$line" ;;
    esac
done < "$root/sdk/test.transcript" > now
if diff -u "$root/sdk/test.transcript" now; then pass; else fail "sdk/test.transcript"; fi

# ---- the names that the programs in C are compiled with, and each script's length and help
for name in checksum server notary rotate; do
    sdk/names "examples/$name.toml" > names.h
    same "examples/${name}_names.h" names.h "examples/${name}_names.h"
done
for script in names link explain fill swaps; do
    "sdk/$script" --help > help && grep -q "sdk/$script" help && pass || fail "sdk/$script --help"
done
for file in "$root"/sdk/*.py "$root"/sdk/names "$root"/sdk/link "$root"/sdk/explain "$root"/sdk/fill "$root"/sdk/swaps; do
    [ "$(wc -l < "$file")" -lt 200 ] && pass || fail "$file has 200 lines or more"
done

# ---- the programs in C, by the compiler of which the ELF files are
flags='-march=rv32im -mabi=ilp32 -O2 -ffreestanding -Wall -Wextra -Isdk'
layout='-nostartfiles -Tsdk/wedge.ld'
gcc="riscv64-unknown-elf-gcc --specs=picolibc.specs $flags $layout"
if [ "$(riscv64-unknown-elf-gcc -dumpfullversion 2> /dev/null)" = 12.2.0 ]; then
    for name in checksum server notary rotate; do
        $gcc -Wl,-n,-S -o made.elf "examples/$name.c" 2>&1 || fail "$name.c does not compile"
        same "examples/$name.elf" made.elf "examples/$name.elf"
        $gcc -g -Wl,-n -o debugged.elf "examples/$name.c" 2>&1 || fail "$name.c does not compile with -g"
        sdk/link "examples/$name.elf" "examples/$name.toml" > plain.wedge
        sdk/link debugged.elf "examples/$name.toml" > debugged.wedge
        same "the image of $name with -g" plain.wedge debugged.wedge
    done
    $gcc -g -Wl,-n -o debugged.elf examples/notary.c
    bin/wedge link debugged.elf examples/notary.toml > notary.wedge
    bin/wedge run notary.wedge | sdk/explain notary.wedge debugged.elf | grep -q 'denied 0.2 .*(notary.c:[0-9]* worker_body' && pass || fail "lines in C"

    # Compiled once, and linked for two partitions: each has its own numbers, and a third one has no such name.
    printf '#include "wedge.h"\nWEDGE_ENTRY(main, argument) { return WEDGE_LINKED(TAG_KEY) + 16 * (WEDGE_LINKED(SEG_KEY) >> 16); }\n' > linked.c
    $gcc -c -o linked.o linked.c || fail "linked.c does not compile"
    cp examples/notary.toml first.toml
    { cat examples/notary.toml; printf '[[tag]]\nname = "adminkey"\npages = 1\nright = "Read"\n'; } > second.toml
    for name in first:262144 second:262161; do
        sdk/names --ld "${name%:*}.toml" > names.ld
        $gcc -Wl,-n,-S -o linked.elf linked.o names.ld && sdk/link linked.elf "${name%:*}.toml" > linked.wedge
        bin/wedge run linked.wedge | grep -q "^actor 0 main exited ${name#*:} " && pass || fail "linked for ${name%:*}.toml"
    done
    sdk/link linked.elf first.toml > linked.wedge 2> said && fail "linked for second.toml, taken for first.toml" || pass
    sdk/names --ld examples/server.toml > names.ld
    $gcc -Wl,-n,-S -o linked.elf linked.o names.ld 2> said && fail "a name that the partition lacks is linked" || pass
    grep -q 'undefined reference to .TAG_KEY' said && pass || fail "a name that the partition lacks is not named"
else
    leave_out "ELF files compared: riscv64-unknown-elf-gcc 12.2.0 is not there"
fi

# ---- by clang: other addresses, but the same denials of the same actors, and the same streams
if clang --version 2> /dev/null | grep -q 'version 14\.' && command -v ld.lld > /dev/null; then
    for name in server notary rotate; do
        clang --target=riscv32 $flags -nostdlib -fuse-ld=lld -Wl,-n,-S -Tsdk/wedge.ld -o made.elf "examples/$name.c" 2>&1 || fail "$name.c by clang"
        sdk/link made.elf "examples/$name.toml" > made.wedge && bin/wedge run made.wedge > made.report
        sed -n 's/^denied \([0-9.]*\) pc [0-9a-f]*/\1/p; /^stream/p' made.report > made.lines
        sed -n 's/^denied \([0-9.]*\) pc [0-9a-f]*/\1/p; /^stream/p' "examples/$name.report" > wanted.lines
        same "$name by clang" made.lines wanted.lines
    done
else
    leave_out "programs compiled by clang: clang 14 or ld.lld is not there"
fi

# ---- the same C without wedge
if command -v "${CC:-cc}" > /dev/null; then
    "$root/sdk/host.sh" > said 2>&1 && pass || { cat said; fail "sdk/host.sh"; }
else
    leave_out "sdk/host.sh: no cc"
fi

echo "sdk/test.sh: $passed passed, $failed failed, $left_out left out"
[ $failed -eq 0 ]
