# Shared by the scripts that build the library for C. A script sources this.

# library TOP COMPILE TOOL NEW WORDS..: compiles bindings/c/lakhdzeva.c of the folder TOP with this compiler, and makes one object of it and of
# the proved functions, which the words of the linker name. In it every name is local except the functions of lakhdzeva.h. The proved functions
# get, grow and free memory by the three functions of lakhdzeva.c that wipe it. TOOL is what the names of the other tools begin with.
library() {
    local top=$1 compile=$2 tool=$3 new=$4 ours=$4.ours proved=$4.proved version
    shift 4
    version=$(cut -d ' ' -f 1 "$top/VERSION")
    "$compile" -std=c11 -D_GNU_SOURCE -O2 -fPIC -fno-stack-protector -U_FORTIFY_SOURCE -Wall -Wextra -Wpedantic -Wconversion -Werror \
        "-DLAKHDZEVA_VERSION=\"$version\"" -c "$top/bindings/c/lakhdzeva.c" -o "$ours"
    "${tool}ld" -r "$@" -o "$proved"
    "${tool}objcopy" --redefine-sym malloc=lakhdzeva_wiped_malloc --redefine-sym realloc=lakhdzeva_wiped_realloc \
        --redefine-sym free=lakhdzeva_wiped_free "$proved"
    "${tool}ld" -r "$ours" "$proved" -o "$new"
    rm "$ours" "$proved"
    "${tool}objcopy" --wildcard --keep-global-symbol='lakhdzeva_*' --keep-global-symbol='!lakhdzeva_core_*' --keep-global-symbol='!lakhdzeva_wiped_*' "$new"
}

# shared TOP COMPILE OBJECT NEW: links the shared library from the object that `library` made. It names no other library, so it asks for the
# functions of the C library by their plain names, and every program has these: one file for glibc and musl.
shared() {
    "$2" -shared -nostdlib -o "$4" -Wl,-soname,liblakhdzeva.so.3 "-Wl,--version-script=$1/bindings/c/lakhdzeva.map" -Wl,-z,relro,-z,now \
        -Wl,-z,noexecstack -Wl,--build-id=none "$3"
}
