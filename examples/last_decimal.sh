#!/bin/sh
# Two servers, one sheet, the last decimal: a guest that is restarted on another server may compute otherwise, and under a pool's table it does not.
#
#   examples/last_decimal.sh [SNP-CPUID]
#
# Server A shows FMA and AVX2, server B hides them. `hidden` stands for a guest under a table: it hides from glibc what the table hides
# (GLIBC_TUNABLES; glibc before 2.33 spells the bits otherwise). Wants python3, and a processor that has both bits.
set -eu

command=${1:-snp-cpuid}
here=$(dirname "$0")
work=$(mktemp -d)
trap 'rm -r "$work"' EXIT

# server B: server A's dump without FMA (1.ECX bit 12) and AVX2 (7.0.EBX bit 5)
"$command" to-dump "$here/../tests/data/epyc-milan.pages" -o "$work/a.dump"
sed 's/ecx=0xfeda3203/ecx=0xfeda2203/; s/ebx=0x219c07a9/ebx=0x219c0789/' "$work/a.dump" > "$work/b.dump"
for server in a b; do "$command" from-dump "$work/$server.dump" -o "$work/$server.pages" 2>/dev/null; done

# the bits that a table hides from a guest's programs, as glibc calls them
hidden() {
    "$command" lookup "$1" 1 | grep -qw FMA && "$command" lookup "$1" 7.0 | grep -qw AVX2 || echo -FMA,-AVX2,-FMA_Usable,-AVX2_Usable
}

# the sheet: a price of 100 after a year of small daily changes, as a guest under a table computes it
sheet() {
    GLIBC_TUNABLES=glibc.cpu.hwcaps=$(hidden "$1") python3 -c '
import math
price = 100.0
for day in range(1, 366):
    price *= math.exp(math.sin(day) / 50)
print(price)'
}

fingerprint() {
    "$command" table "$1" | sed -n 's/^fingerprint *//p'
}

told() {
    echo "$1: $(sheet "$2")"
    echo "   computed under $(fingerprint "$2")"
}

"$command" compare "$work/b.pages" "$work/a.pages" | sed '/^$/,$d'
told "server B" "$work/b.pages"
told "server A" "$work/a.pages"
"$command" pool "$work/a.pages" "$work/b.pages" -o "$work/pool.image" 2>/dev/null
told "server B, pool's table" "$work/pool.image"
told "server A, pool's table" "$work/pool.image"
