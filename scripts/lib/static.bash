# Shared by the scripts that make static programs and try them. A script sources this at the top of the repository.

# tools TARGET: sets $compile, the compiler for this processor, and $tool, what the names of its other tools begin with. If the machine lacks
# one of them or the C library as an archive, it prints what is missing, and returns 1.
tools() {
    local name file
    case $1 in
        x86_64) compile=cc tool= ;;
        aarch64) compile=aarch64-linux-gnu-gcc tool=aarch64-linux-gnu- ;;
        *) echo "there is no target $1, only x86_64 and aarch64" && return 1 ;;
    esac
    for name in "$compile" "${tool}ld" "${tool}nm" "${tool}objcopy" "${tool}ar" readelf; do
        command -v "$name" >/dev/null || { echo "$name is not installed"; return 1; }
    done
    [ "$("$compile" -dumpmachine | cut -d - -f 1)" = "$1" ] || { echo "$compile does not compile for $1"; return 1; }
    for file in libc.a rcrt1.o; do
        [[ $("$compile" -print-file-name="$file") == */* ]] || { echo "$compile has no $file"; return 1; }
    done
}

# port OBJECT NEW WORDS..: compiles static/port.c with these words for what the object asks for. It refuses an object that asks for other
# functions of Rattle's C than port.c has, or for fewer.
port() {
    local object=$1 new=$2
    shift 2
    "$compile" -std=c11 -O2 -fPIE -Wall -Wextra -Wpedantic -Wconversion -Werror "$@" -c static/port.c -o "$new"
    diff <("${tool}nm" -u "$object" | sed -n 's/.* \(rattle_.*\)/\1/p' | sort) <("${tool}nm" -g --defined-only "$new" | sed 's/.* //' | sort) >&2 ||
        { echo "$object (<) and static/port.c (>) have other functions" >&2; return 1; }
}

# link TARGET NEW WORDS..: links out/static/TARGET/jose.o, or the object $linked if that is set, with the C that stands for Rattle's own, with these words, and with glibc into a
# program that needs no library, has no fixed address, and has relocations that are read-only when it starts. The kit has this C for x86_64.
# For others, and if $ported is set, it is static/port.c. The program for x86_64 tests its processor first (static/processor.c). If $kept is set,
# this file becomes one object of all but glibc, which can be linked with another glibc.
link() {
    local target=$1 new=$2 object=${linked:-out/static/$1/jose.o} status=0 ours=() given=()
    shift 2
    if [ "$target" = x86_64 ]; then
        ours+=("$(mktemp --suffix=.o)")
        "$compile" -std=gnu11 -O2 -fPIE -Wall -Wextra -Wpedantic -Werror -c static/processor.c -o "${ours[-1]}" || status=1
    fi
    if [ "$target" != x86_64 ] || [ -n "${ported-}" ]; then
        ours+=("$(mktemp --suffix=.o)")
        port "$object" "${ours[-1]}" || status=1
    else
        given=("$(dirname "$(rt doc)")"/c/{libos_c.a,liblibc_c.a})
    fi
    [ "$status" != 0 ] || [ -z "${kept-}" ] || "${tool}ld" -r -o "$kept" "$object" "${ours[@]}" "${given[@]}" || status=1
    [ "$status" != 0 ] ||
        "$compile" -static-pie -s -Wl,-z,relro,-z,now,-z,noexecstack -Wl,--build-id=none -o "$new" "$object" "$@" "${ours[@]}" "${given[@]}" || status=1
    rm -f "${ours[@]}"
    return "$status"
}

# sources: prints a checksum of all that the static programs are made from. A release takes no program that was made from other sources.
sources() {
    find crates static bindings/c/lakhdzeva.* crates.txt scripts/build scripts/build-static scripts/lib/{static,library}.bash scripts/lib/processor -name out -prune -o -type f -print0 | LC_ALL=C sort -z | xargs -0 sha256sum | sha256sum
}

# is_built TARGET: ends with 0 if out/static/TARGET has the files that `make static` made from these sources.
is_built() {
    (cd "out/static/$1" 2>/dev/null && sha256sum --status -c SHA256SUMS 2>/dev/null) && [ "$(sources)" = "$(cat "out/static/$1/sources")" ]
}

# is_static PROGRAM: ends with 0 if the program needs no loader and no library, has no fixed address, and its relocations become read-only.
is_static() {
    local parts
    parts=$(readelf -hldW "$1") && grep -q 'Type: *DYN' <<<"$parts" && grep -q GNU_RELRO <<<"$parts" && grep -q 'Flags: NOW' <<<"$parts" &&
        grep -q 'GNU_STACK.* RW ' <<<"$parts" && ! grep -qE 'INTERP|\(NEEDED\)|\(TEXTREL\)' <<<"$parts"
}
