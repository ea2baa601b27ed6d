#!/bin/sh
# The archive exports the header's calls and nothing else, asks for
# nothing but the C library's block copies and fills (so it cannot allocate,
# print or lock), and its code is position independent: no relocation has an
# address of 32 bits or writes one into code. It is for the machine that the
# manual names.
set -eu
archive=$LIBDIR/libbarrier_engine.a
tmp=$(mktemp -d)
trap 'rm -rf "$tmp"' EXIT

nm -g --defined-only "$archive" | awk 'NF == 3 { print $3 }' | sort -u >"$tmp/exported"
sed -n 's/^[a-z][a-z0-9_]* \(barrier_[a-z_]*\)(.*/\1/p' include/barrier.h | sort -u >"$tmp/calls"
grep -qx barrier_plan "$tmp/calls"
diff "$tmp/calls" "$tmp/exported"

LC_ALL=C readelf -h "$archive" | sed -n 's/^ *\(Class\|Data\|OS\/ABI\|Machine\): *//p' | LC_ALL=C sort -u >"$tmp/machine"
printf '%s\n' "2's complement, little endian" 'Advanced Micro Devices X86-64' ELF64 'UNIX - System V' | diff - "$tmp/machine"

nm -u "$archive" | awk 'NF == 2 { print $2 }' | sort -u >"$tmp/asked"
if grep -vxE 'barrier_[a-z_]+|mem(cpy|move|set|cmp)|bcmp' "$tmp/asked"; then
    echo "archive: it asks for the names above" >&2
    exit 1
fi

# The objects' relocations, of code and read-only data: all relative.
objdump -r "$archive" | awk '/^RELOCATION RECORDS FOR \[\.(text|rodata)/ { code = 1; next } /^RELOCATION/ { code = 0 } code && NF == 3 && $2 ~ /^R_/ { print $2 }' | sort -u >"$tmp/relocations"
[ -s "$tmp/relocations" ]
if grep -vxE 'R_X86_64_(PC32|PLT32|GOTPCREL|GOTPCRELX|REX_GOTPCRELX)' "$tmp/relocations"; then
    echo "archive: its code has the relocations above" >&2
    exit 1
fi
$CC -shared -o "$tmp/barrier.so" -Wl,-z,text -Wl,--whole-archive "$archive" -Wl,--no-whole-archive
count=$(wc -l <"$tmp/calls")
echo "archive: ELF for x86-64, exports the header's $count calls, asks for nothing but block copies and fills, position independent"
