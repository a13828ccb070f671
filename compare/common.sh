# Read by `run` and `bench`, which set `given`: goes to the repository's root, and says how the library
# is proved and built, and how a program is compiled and linked with it. The archive is for x86-64: on
# another processor C programs for it want a kit with a clang, a linker and an emulator for that processor.
cd "$(dirname "${BASH_SOURCE[0]}")/.."
out=target/compare
mkdir -p "$out"

kit=${RATTLE_HOME:-$(dirname "$(readlink -f "$(command -v rt)")")/..}
kit=$(realpath "$kit")
own=on/$(uname -m)
tools=$kit/$own/toolchain

# on_x86: whether the archive's code runs here as it is.
on_x86() {
    [ "$(uname -m)" = x86_64 ]
}

# library: sets `archive`. One given by name is taken as it is, so that a faulty copy can be compared too.
library() {
    if [ -n "$given" ]; then
        archive=$given
    else
        (cd crates/cface && rt lib)
        archive=crates/cface/out/libcface.a
    fi
}

# rust SOURCE PROGRAM [WORD...]: the words go to rustc.
rust() {
    rustc --edition 2021 -C opt-level=3 -D warnings "compare/$1" -o "$out/$2" "${@:3}"
}

# c SOURCE PROGRAM: linked with the archive.
c() {
    local words=(-std=c99 -O2 -Wall -Wextra -Wpedantic -Werror -I include "compare/$1")
    if on_x86; then
        gcc "${words[@]}" "$archive" -o "$out/$2"
    else
        emulated "$2" "${words[@]}"
    fi
}

# emulated PROGRAM WORD...: as `c`, the words being clang's. The program is a script that starts the
# emulator, so that it is run like any other. The kit's clang has no headers of its own.
emulated() {
    local target=x86_64-unknown-linux-gnu program=$PWD/$out/$1
    "$tools/bin/clang" --target=$target -fPIE -nostdinc -isystem compare/headers "${@:2}" -c -o "$program.o"
    # Says a line even when all is well.
    "$kit/$own/bin/rattle-link" --target $target --toolchain "$tools" \
        -o "$program.x86_64" "$program.o" "$archive" 2> "$program.said" || { cat "$program.said" >&2; return 1; }
    {
        echo '#!/usr/bin/env bash'
        printf 'exec %q %q --library-path %q %q\n' \
            "$tools/bin/qemu-x86_64" "$tools/lib/ld-linux-x86-64.so.2" "$tools/lib" "$program.x86_64"
    } > "$program"
    chmod +x "$program"
}
