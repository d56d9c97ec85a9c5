# shellcheck shell=bash
# The proved library's archive, for oracle/run and bench/run, which source this file. The caller has a function `stop` that says what is wrong and ends.

# library_find ROOT DIR: lib is the archive: the file LIB where that is set, else libcapi.a, built into DIR/lib from the repository ROOT
library_find() {
    local root=$1 dir=$2
    if [ -n "${LIB:-}" ]; then
        [ -f "$LIB" ] || stop "no file $LIB"
        lib=$(cd "$(dirname "$LIB")" && pwd -P)/$(basename "$LIB")
    else
        command -v rt >/dev/null || stop "'rt', the command of the Rattle toolchain, is not on PATH; or set LIB to libcapi.a"
        (cd "$root" && oracle/native capi "$dir/lib") >"$dir/native.say" 2>&1 || { cat "$dir/native.say" >&2; stop "the library capi couldn't be built"; }
        lib=$dir/lib/libcapi.a
    fi
}

# its name and the beginning of its sum, as reports tell it
library_says() { echo "$(basename "$lib"), sha256 $(sha256sum <"$lib" | cut -c1-16).."; }
