# What the tests in C share; each of their scripts 'run' sources this file. Most call c_test once; one that compiles something else calls c_begin first,
# then counts for each comparison, and c_end.
# They need gcc; where there is none, Debian's gcc and libc6-dev are installed. What they make stands under target/.
set -euo pipefail
unset CDPATH
cd "$(dirname "${BASH_SOURCE[0]}")/.."

# Is there a C compiler, with the headers that the tests use?
compiles() { command -v gcc >/dev/null && printf '#include <stdio.h>\n' | gcc -fsyntax-only -x c - 2>/dev/null; }

# The same for C++.
compiles_cplusplus() { command -v g++ >/dev/null && printf '#include <vector>\n' | g++ -fsyntax-only -x c++ - 2>/dev/null; }

# stop TEXT: the test that c_begin has named cannot go on.
stop() {
    printf 'tests/%s: %s\n0 passed, 1 failed\n' "$name" "$1"
    exit 1
}

# counts WHAT COMMAND..: a comparison passes if the command ends with 0; else WHAT is said, and what the command printed.
passed=0
failed=0
counts() {
    local what=$1
    shift
    if "$@" >"$folder/said" 2>&1; then
        passed=$((passed + 1))
    else
        failed=$((failed + 1))
        printf '%s\n' "$what"
        head -n 20 "$folder/said"
    fi
}

# c_end: the last line of a test that has called counts, and its status.
c_end() {
    printf '%d passed, %d failed\n' "$passed" "$failed"
    ((failed == 0))
}

# provide WHAT TEST PACKAGE..: WHAT is there if the command TEST ends with 0; else these packages of Debian are installed, and it must be there.
provide() {
    local what=$1 there=$2
    shift 2
    if "$there"; then return; fi
    printf '%s is missing: installing %s\n' "$what" "$*"
    command -v apt-get >/dev/null || stop "$what is missing, and there is no apt-get to install it"
    { apt-get update -qq && DEBIAN_FRONTEND=noninteractive apt-get install -y -qq --no-install-recommends "$@"; } >/dev/null 2>&1 ||
        stop "$what is missing, and apt-get could not install $* (it needs root and a package source)"
    "$there" || stop "$* installed, but $what does not work"
}

# archive CRATE: its archive, made where that is due.
archive() {
    bin/archive "$1" >"$folder/archive.log" 2>&1 || {
        tail -n 20 "$folder/archive.log"
        stop "bin/archive $1 failed"
    }
    archives+=("target/staticlib/lib$1.a")
}

# c_begin NAME CRATE..: the test's name, its folder for what is made, and the archives of these crates, in the order in which they are linked.
c_begin() {
    name=$1 folder=target/tests/$1 archives=()
    shift
    provide gcc compiles gcc libc6-dev
    mkdir -p "$folder"
    local crate
    for crate in "$@"; do archive "$crate"; done
}

# c_test NAME CRATE..: build the archives of these crates and the test program of tests/NAME and tests/common, and run it. Its last line is
# 'N passed, M failed'.
c_test() {
    local status=0
    c_begin "$@"
    gcc -std=c11 -Wall -Wextra -Werror -O2 -Iinclude -Itests/common "tests/$name"/*.c tests/common/*.c "${archives[@]}" -o "$folder/$name" ||
        stop 'the tests do not compile'
    "$folder/$name" >"$folder/$name.log" || status=$?
    cat "$folder/$name.log"
    tail -n 1 "$folder/$name.log" | grep -Eqx '[0-9]+ passed, [0-9]+ failed' || stop "the tests ended with status $status before their end"
    exit "$status"
}
