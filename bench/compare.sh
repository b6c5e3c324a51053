#!/bin/sh
# Compares: a CRC loop by wedge, natively and by qemu-riscv32, in processor time for each byte; and the memory that a run
# takes for each shared access. It checks that all three compute the same. For docs/QUESTIONS.md. It needs
# riscv64-unknown-elf-gcc, qemu-riscv32, cc and /usr/bin/time. The program is that of bin/wedge, or $WEDGE.
root=$(cd "$(dirname "$(readlink -f "$0")")/.." && pwd) || exit 1
WEDGE=${WEDGE:-$root/crates/wedge/out/wedge}
for tool in "$WEDGE" riscv64-unknown-elf-gcc qemu-riscv32 cc /usr/bin/time; do
    command -v "$tool" > /dev/null || { echo "bench/compare.sh: $tool is not there" >&2; exit 1; }
done
work=$(mktemp -d) || exit 1
trap 'rm -rf "$work"' EXIT
cd "$work" || exit 1
few=400
many=40000
gcc="riscv64-unknown-elf-gcc -march=rv32im -mabi=ilp32 -O2 -ffreestanding -nostartfiles"
for rounds in $few $many; do
    cc -O2 -DROUNDS=$rounds -o "native$rounds" "$root/bench/compare.c" || exit 1
    $gcc -nostdlib -DFOR_QEMU -DROUNDS=$rounds -o "qemu$rounds" "$root/bench/compare.c" -lgcc || exit 1
done
$gcc --specs=picolibc.specs -DFOR_WEDGE -DROUNDS=$few -I"$root/sdk" -T"$root/sdk/wedge.ld" -Wl,-n,-S -o wedge.elf "$root/bench/compare.c" || exit 1
printf 'fuel = 16777216\nuser = 0\nroot = "/"\n' > wedge.toml
"$WEDGE" link wedge.elf wedge.toml > wedge.wedge || exit 1

# The same result by all three.
value=$(./native$few)
[ "$(qemu-riscv32 qemu$few)" = "$value" ] || { echo "bench/compare.sh: qemu-riscv32 computes otherwise" >&2; exit 1; }
"$WEDGE" run wedge.wedge > report || exit 1
grep -q "^actor 0 main exited $value " report || { echo "bench/compare.sh: wedge computes otherwise" >&2; exit 1; }

# The least processor time of seven runs, in nanoseconds for each byte.
measure() {
    rounds=$2
    name=$1
    shift 2
    for _ in 1 2 3 4 5 6 7; do
        /usr/bin/time -f %U -o time "$@" > out 2>&1
        cat time
    done | sort -n | head -n 1 | awk -v name="$name" -v bytes=$((rounds * 4096)) '{ printf "%-16s %8.2f ns a byte\n", name, 1e9 * $1 / bytes }'
}
measure native $many ./native$many
measure qemu-riscv32 $many qemu-riscv32 qemu$many
measure wedge $few "$WEDGE" run wedge.wedge
awk -v bytes=$((few * 4096)) '{ printf "%-16s %8.2f a byte\n", "instructions", (16777216 - $NF) / bytes; exit }' report

# The memory for each shared access: what a run with a million more takes more.
for fuel in 300002 1800002; do
    printf 'fuel = %s\nuser = 0\nroot = "/"\nentry = "main"\ntext = """\n.proc main\nli t0, seg_box\nagain:\nlw a0, 0(t0)\nsw a0, 4(t0)\nj again\n"""\n[[tag]]\nname = "box"\npages = 1\nright = "ReadWrite"\n' $fuel > memory.toml
    "$WEDGE" build memory.toml > memory.wedge || exit 1
    /usr/bin/time -f %M -o kilobytes$fuel "$WEDGE" run memory.wedge > out
done
paste kilobytes300002 kilobytes1800002 | awk '{ printf "%-16s %8.1f bytes\n", "a shared access", ($2 - $1) * 1024 / 1000000 }'
