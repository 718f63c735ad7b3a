# What the tests in bash share. A test begins with it: . "$(dirname "$0")/../shared.sh". It stops at the first command that fails, and is run in the
# repository's folder.
set -eu
cd "$(dirname "${BASH_SOURCE[0]}")/.."
test_name=$(basename "$0")

fault() { # WHAT
    echo "$test_name: $1"
    exit 1
}

# Programs of tests/build.mk, and the archive with those that link it; they are left in target/tests.
built() { # PROGRAM..
    MAKEFLAGS='' make -s -f tests/build.mk "${@/#/target/tests/}" || fault "not built: $*"
}

# The model by itself, under the sanitizers, which see it on a machine that can't link the archive too.
run_alone() { # PROGRAM SEED
    "target/tests/$1" plain 30000 "$2" >"target/tests/$1.log" 2>&1 && return
    head -n 20 "target/tests/$1.log" | cut -c1-400
    fault 'the model by itself is stopped by a sanitizer'
}

# A program of the repository is proved and built, and writes what its file `stdout` has. Descriptors 3 and 4, at which `shown` reads names and hours,
# are closed.
proved() { # NAME
    tools/prove "$1" || fault "$1 is not proved"
    mkdir -p target/tests
    tools/run "target/bin/$1" <"crates/$1/stdin" >"target/tests/$1.wrote" 3<&- 4<&- || fault "the run of $1 stopped"
    cmp -s "target/tests/$1.wrote" "crates/$1/stdout" || fault "$1 wrote something else than crates/$1/stdout: target/tests/$1.wrote"
}

same() { # WROTE WANTED WHAT
    cmp -s "$1" "$2" && return
    diff "$1" "$2" | cut -c1-200 | head -n 6 || true
    fault "$3: '<' is what was written, '>' what must be"
}

# The hill is run (examples/hill.c) in a folder of its own: what it writes is then in FOLDER/wrote, the calls of one gauge in
# FOLDER/target/hill.trace, and what they gave in FOLDER/target/hill.answers; those of the others in FOLDER/target/hill.
hill_recorded() { # FOLDER
    local root=$PWD
    built hill
    mkdir -p "$1/target/hill"
    (cd "$1" && "$root/tools/run" "$root/target/tests/hill") >"$1/wrote" || { tail -n 1 "$1/wrote"; fault 'the run of the hill stopped'; }
}
