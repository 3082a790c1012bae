# How a C program is built with the proved library; the scripts of this repository source it behind kit.sh. The library is for x86-64 Linux, and so is
# the program.

# Sets cc, or says what is missing and answers 2.
find_cc() {
    cc=${CC:-cc}
    command -v "$cc" >/dev/null || {
        echo "there is no C compiler $cc: any for x86-64 will do; set CC where it has another name" >&2
        return 2
    }
}

# Where the library lies once it is built, from the root of the repository.
library=crates/host/out/libhost.a

# Has the library proved and built where it is not.
build_library() { # ROOT
    mkdir -p "$1/out"
    echo "proving and building the library; from nothing this takes some minutes" >&2
    (cd "$1/crates/host" && rt lib) >"$1/out/host.log" 2>&1 || {
        tail -n 5 "$1/out/host.log" >&2
        echo "the library was not proved; $1/out/host.log has everything that was said" >&2
        return 1
    }
}
