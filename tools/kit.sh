# How the kit is found and a program of crates/ is built; the scripts of this repository source it. The kit, and what it builds, is for x86-64 Linux.
# The kit is found from where rt lies, as rt finds it.

# Sets kit, or says what is missing and answers 2.
find_kit() {
    rt=$(command -v rt) || {
        echo "rt is not on PATH: install the Rattle kit, and put its bin folder there" >&2
        return 2
    }
    while [ -L "$rt" ]; do
        link=$(readlink "$rt")
        case $link in /*) rt=$link ;; *) rt=$(dirname "$rt")/$link ;; esac
    done
    kit=$(cd "$(dirname "$rt")/.." && pwd -P)
    [ "$(uname -m)" = x86_64 ] || {
        echo "the Rattle kit at $kit has nothing for this machine, $(uname -m)" >&2
        return 2
    }
}

# Where a program lies once it is built, from the root of the repository. It is run as it is.
program_of() { echo "crates/$1/out/$1"; } # NAME

# Has a program proved and built where it is not. rt builds one only where it is to run it, so it is run too, on no input and without arguments: every
# program here takes that, and ends with status 0.
build_program() { # ROOT NAME
    (cd "$1/crates/$2" && rt run </dev/null && [ -f "out/$2" ])
}
