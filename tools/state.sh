#!/usr/bin/env bash
# state.sh ARCHIVE: what a library keeps between its calls and what it asks of others, by nm and objdump.
# - Writable data: each section that can be written and isn't empty, and each symbol in such a section or in common. There must be none. A section
#   .data.rel.ro holds constants that are addresses, which only the loader writes: it is told, and allowed.
# - Undefined symbols that no object of the archive defines. Allowed is only what compilers call by themselves to move, fill or compare memory.
# The exit status is 0 if that is all, 1 if there is more, 2 where the archive can't be read. NM and OBJDUMP name other programs.
set -euo pipefail
export LC_ALL=C
stop() { echo "state.sh: $*" >&2; exit 2; }
[ $# = 1 ] || stop "give one archive, as crates/capi/out/libcapi.a"
[ -f "$1" ] || stop "no file $1"
nm=${NM:-nm} objdump=${OBJDUMP:-objdump}
for tool in "$nm" "$objdump"; do command -v "$tool" >/dev/null || stop "$tool is not on PATH"; done
allowed='memcpy|memmove|memset|memcmp|bcmp'
name=$(basename "$1")

# each symbol: its name, its class and its section
symbols=$("$nm" -f sysv "$1" 2>/dev/null | awk -F'|' 'NF == 7 { gsub(/ /, ""); if ($3 != "Class") print $1, $3, $7 }') || stop "$nm can't read $1"
# each section: its name, its size, its flags. objdump has two lines for one
sections=$("$objdump" -h "$1" 2>/dev/null) || stop "$objdump can't read $1"
objects=$(grep -c 'file format ' <<<"$sections" || true)
sections=$(awk '$1 ~ /^[0-9]+$/ { s = $2 " 0x" $3; next } s != "" { print s, $0; s = "" }' <<<"$sections")
defined=$(awk '$2 !~ /^[Uwv]$/ && NF' <<<"$symbols" | wc -l)
[ "$objects" -gt 0 ] && [ "$defined" -gt 0 ] || stop "$1 has no object with a symbol"
echo "$name: $objects objects, $defined symbols defined"

writable=$(awk '/ALLOC/ && !/READONLY/ && $2 !~ /^0x0+$/ { print $1, $2 }' <<<"$sections")
loaded=$(awk '$1 ~ /^\.data\.rel\.ro/' <<<"$writable")
writable=$(awk '$1 !~ /^\.data\.rel\.ro/' <<<"$writable")
state=$(awk 'NF && $2 ~ /^[BbCcDdGgSs]$/ && $3 !~ /^\.data\.rel\.ro/ { print $1 " in " ($3 == "" ? "?" : $3) }' <<<"$symbols")
needs=$(awk 'NF { if ($2 ~ /^[Uwv]$/) u[$1]; else d[$1] } END { for (s in u) if (!(s in d)) print s }' <<<"$symbols" | sort)
other=$(awk -v allowed="^($allowed)\$" 'NF && $1 !~ allowed' <<<"$needs")

list() { echo "$1: $(if [ -n "$2" ]; then tr '\n' ',' <<<"$2" | sed 's/,$//; s/,/, /g'; else echo none; fi)"; }
list "writable sections" "$writable"
list "symbols in writable data" "$state"
[ -z "$loaded" ] || list "constants that are addresses" "$loaded"
list "undefined symbols" "$needs"
[ -z "$other" ] || list "undefined and not allowed" "$other"
if [ -n "$writable$state$other" ]; then
    echo "$name has state, or asks for more than memory moves"
    exit 1
fi
echo "$name has no state"
