# What the scripts of tests/ and bench/ share; they read it in from the top of the repository.

# Prints where the toolchain builds a crate's program, which runs as it is.
program_of() { # NAME
    printf '%s\n' "crates/$1/out/$1"
}

# Asks for a crate's program, which a command builds.
built() { # NAME COMMAND
    if [ -x "$(program_of "$1")" ]; then return; fi
    echo "$(program_of "$1") is not here: $2 builds it" >&2
    return 2
}

# Asks for a program of a Debian package, and installs the package where that can be done.
need() { # PROGRAM PACKAGE
    if command -v "$1" >/dev/null; then return; fi
    if [ "$(id -u)" != 0 ] || ! command -v apt-get >/dev/null; then
        echo "$1 is not here: install it (Debian: apt-get install $2) and run this again" >&2
        return 2
    fi
    echo "$1 is not here: installing it by apt-get"
    DEBIAN_FRONTEND=noninteractive apt-get update >/dev/null
    DEBIAN_FRONTEND=noninteractive apt-get install -y "$2" >/dev/null
}

# Builds a Rust program without dependencies from the folder of its main.rs, where a Rust file is newer than the program.
build_rust() { # FOLDER PROGRAM WORDS...
    local folder=$1 program=$2
    shift 2
    if [ -x "$program" ] && [ -z "$(find tests bench -newer "$program" -name '*.rs')" ]; then return; fi
    need rustc rustc
    mkdir -p "$(dirname "$program")"
    rustc --edition 2021 -C opt-level=3 -o "$program" "$folder/main.rs" "$@"
}

# Proves a program and compiles it to ROOM/NAME.o, as rt does, with the shell script on standard input in the compiler's place: that finds the
# LLVM module as module.bc where it runs, and the kit's own compiler as $clang. It needs what `rt run` made in the program's crate and below.
compile_by() { # NAME ROOM
    local home tools name words=(--crate-name "$1" src/main.rt)
    home=$(rt doc)
    home=${home%/*}
    tools=$home/toolchain
    rm -rf "$2"
    mkdir -p "$2/bin"
    ln -s "$tools"/bin/* "$2/bin"
    ln -s "$tools/lib" "$2/lib"
    rm "$2/bin/clang"
    { printf '#!/bin/sh\nclang=%s\n' "'$tools/bin/clang'" && cat; } >"$2/bin/clang"
    chmod +x "$2/bin/clang"
    for name in std $(sed -n "s/^$1: *//p" crates.txt); do
        if [ -d "crates/$name" ]; then words+=(--extern "$name=../$name/out/rlib/$name.rlib"); else words+=(--extern "$name=$home/rlibs/$name.rlib"); fi
    done
    for name in crates/*/out/rlib; do words+=(-L "dependency=../../$name"); done
    words+=(-L "dependency=$home/rlibs" --antt-project "$home/rattle/logic/antt-project.json" --logic-built "$home/logic_built" --incremental out/incremental)
    if ! (cd "crates/$1" && exec "$home/bin/rattle" build "${words[@]}" --backend llvm --toolchain "$2" -o "$2/$1.o") >"$2/said" 2>&1; then
        cat "$2/said" >&2
        return 1
    fi
}
