# common.sh: read by the other scripts. It goes to the root of the repository
# and has what they share: messages, the kit, the compiler, the archive, the
# program judge_claims. All of them are for x86-64, as the kit is.

set -eu

here=$(CDPATH='' cd -- "$(dirname -- "$0")/.." && pwd -P)
cd "$here"
archive=target/staticlib/libstripeawn.a
program=crates/judge_claims/out/judge_claims

say() { printf '%s: %s\n' "$(basename "$0")" "$*"; }

die() {
    printf '%s: %s\n' "$(basename "$0")" "$*" >&2
    exit 1
}

# Sets kit: the folder with the rt on the PATH, links followed, and one up.
find_kit() {
    rt=$(command -v rt) || die "rt is not on the PATH: install the Rattle kit first"
    kit=$(dirname -- "$(dirname -- "$(readlink -f "$rt")")")
}

# rt_in CRATE WORDS..: rt in the folder of a crate.
rt_in() (
    cd "crates/$1"
    shift
    rt "$@"
)

# Sets cc, cxx and the packages that bring the compilers.
choose_target() {
    find_kit
    machine=$(uname -m)
    [ "$machine" = x86_64 ] || die "the kit is for x86-64, and this is $machine"
    cc=gcc cxx=g++
    cc_packages='gcc libc6-dev' cxx_packages='g++ libc6-dev'
}

# install_packages PACKAGE..: by apt-get, where that is possible at all.
install_packages() {
    [ "$(id -u)" = 0 ] && command -v apt-get >/dev/null || return 1
    say "installing $*"
    mkdir -p target
    DEBIAN_FRONTEND=noninteractive
    export DEBIAN_FRONTEND
    apt-get install -y --no-install-recommends "$@" >target/apt.log 2>&1 && return
    apt-get update >>target/apt.log 2>&1 &&
        apt-get install -y --no-install-recommends "$@" >>target/apt.log 2>&1
}

# need COMMAND PACKAGE: the command is there, or the package brings it.
need() {
    command -v "$1" >/dev/null && return
    install_packages "$2" || true
    command -v "$1" >/dev/null || die "$1 is missing: install the package $2"
}

# compile_c PROGRAM WORDS.. and compile_cxx: the one place that has the flags
# of programs, so that a probe of the compiler meets what they will meet.
compile_c() {
    program=$1
    shift
    "$cc" -std=c11 -Wall -Wextra -Werror -pedantic -Iinclude "$@" \
        -lm -pthread -o "$program"
}

compile_cxx() {
    program=$1
    shift
    "$cxx" -std=c++11 -Wall -Wextra -Werror -pedantic -Iinclude "$@" \
        -o "$program"
}

# Small programs that use the libraries: mathematics, the C++ library.
probe_c() {
    printf '#include <%s.h>\n' math pthread stdio
    echo 'int main(int n, char **w) { return sin(n) > 1 || puts(*w) < 0; }'
}

probe_cxx() {
    echo '#include <vector>'
    echo 'int main() { return std::vector<int>(1).back(); }'
}

# makes_programs LANGUAGE: whether they link and run, with what stood in the
# way in target/probe.log.
makes_programs() {
    mkdir -p target
    rm -f target/probe
    {
        "probe_$1" >"target/probe.$1" &&
            "compile_$1" target/probe "target/probe.$1" && target/probe
    } >target/probe.log 2>&1
}

# need_compiler COMPILER LANGUAGE PACKAGES
need_compiler() {
    makes_programs "$2" && return
    # shellcheck disable=SC2086
    install_packages $3 || true
    makes_programs "$2" && return
    cat target/probe.log >&2
    [ -f target/probe ] || die "$1 is missing or links no programs: install the packages $3"
    die "programs that $1 links do not run here: install the packages $3"
}

need_cc() { need_compiler "$cc" c "$cc_packages"; }
need_cxx() { need_compiler "$cxx" cxx "$cxx_packages"; }

# fresh FILE: it is there and no older than any source of a crate.
fresh() {
    [ -f "$1" ] && [ -z "$(find crates crates.txt -name out -prune -o \
        -type f -newer "$1" -print | head -n 1)" ]
}

# The archive is there and no older than any source of the library.
need_archive() {
    fresh "$archive" || scripts/build
}

# keeps_proofs: each crate's out/ has the modules that rt has checked of it.
keeps_proofs() {
    for crate in crates/*/; do
        [ -d "${crate}out/incremental" ] || return 1
    done
}

# Every crate is proved as it stands, and rt keeps its modules: rt ci leaves
# none. Nothing is checked anew that rt has kept here, or in another checkout.
need_proofs() {
    if fresh target/proved && keeps_proofs; then
        return
    fi
    mkdir -p target
    : >target/proved.new # as old as what is checked
    if ! rt all check >target/check.log 2>&1; then
        cat target/check.log
        die "the crates are not proved as they stand"
    fi
    mv target/proved.new target/proved
}

# link_c PROGRAM WORDS.. and link_cxx: a program over the library.
link_c() {
    mkdir -p "$(dirname "$1")"
    compile_c "$@" "$archive"
}

link_cxx() {
    mkdir -p "$(dirname "$1")"
    compile_cxx "$@" "$archive"
}

# The program judge_claims is built, by a run of it without a claim.
need_program() {
    mkdir -p target
    if ! rt_in judge_claims run </dev/null >/dev/null 2>target/program.log ||
        [ ! -x "$program" ]; then
        cat target/program.log >&2
        die "judge_claims was not built"
    fi
}
