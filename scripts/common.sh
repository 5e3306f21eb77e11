# What the scripts share. A script sets `me`, the name that its messages begin with, goes to the repository's root and
# reads this file.
# shellcheck shell=bash
# shellcheck disable=SC2034,SC2154 # what is set here is read by the scripts, and they set `me`

# A command that fails in $(..) ends it, as it ends the script.
shopt -s inherit_errexit

# Ends the script with one line.
fail() {
    echo "$me: $*" >&2
    exit 1
}

# The scripts are told by variables.
[ $# -eq 0 ] || fail "it takes variables and no words: $*"

# need PROGRAM PACKAGE..: the program is on the PATH. Root can have it from these Debian packages.
need() {
    local program=$1
    shift
    command -v "$program" >/dev/null 2>&1 && return
    local lacks="$program is not on the PATH: install it (Debian: apt-get install $*)"
    { [ "$(id -u)" -eq 0 ] && command -v apt-get >/dev/null 2>&1; } || fail "$lacks"
    apt_install "$@" || { apt-get update >/dev/null 2>&1 && apt_install "$@"; } || fail "$lacks; apt-get could not install it"
    command -v "$program" >/dev/null 2>&1 || fail "$lacks"
}

apt_install() {
    DEBIAN_FRONTEND=noninteractive apt-get install -y --no-install-recommends "$@" >/dev/null 2>&1
}

# The Rattle toolchain's command.
need_rt() {
    need_x86_64
    command -v rt >/dev/null 2>&1 || fail "the Rattle toolchain's command 'rt' is not on the PATH"
}

# The toolchain, the programs and the static library that it makes are for x86-64.
need_x86_64() {
    [ "$(uname -m)" = x86_64 ] || fail "the toolchain, the programs and the library are for x86-64, this machine is $(uname -m)"
}

# quietly WHAT COMMAND..: runs a command and shows what it prints only if it fails.
quietly() {
    local what=$1 said
    shift
    said=$("$@" 2>&1) || {
        echo "$said" >&2
        fail "$what"
    }
}

# The sum over all that a proof or a run of a program reads: the toolchain, the sources of every crate, how they lean on each other.
sources_sum() {
    {
        rt version &&
            find crates crates.txt -regex 'crates/[^/]*/out' -prune -o -type f -print0 | LC_ALL=C sort -z | xargs -0 sha256sum
    } | sha256sum
}

# What the proofs gave stands in target/bin and target/staticlib, each file with the sum over the sources that it was made of beside it.

# is_made SUM FILE: the file is there, made of the sources with this sum.
is_made() {
    [ -f "$2" ] && [ "$(cat "$2.sum" 2>/dev/null)" = "$1" ]
}

# keep SUM FILE AS: copies what a proof gave. What is the same already stays, and with it what is linked with it.
keep() {
    { mkdir -p "$(dirname "$3")" && rm -f "$3.sum"; } || fail "$3.sum could not be removed"
    cmp -s "$2" "$3" || { cp "$2" "$3.part" && mv -f "$3.part" "$3"; } || fail "$3 could not be written"
    echo "$1" >"$3.sum"
}

# rt_in FOLDER WORD..: the command of rt in a crate's folder.
rt_in() {
    (
        cd "$1" && shift && rt "$@"
    )
}

# build_program NAME: proves and builds a program as target/bin/NAME, where that is not done yet of the sources as they are. rt runs
# what it has built, so it gets the input and the words that are stored with the program.
build_program() {
    local folder=crates/$1 program=target/bin/$1 stored=() input=/dev/null sum
    need_rt
    sum=$(sources_sum) || fail "the sources could not be read"
    ! is_made "$sum" "$program" || return 0
    [ -f "$program" ] || echo "$me: the program $1 is proved and built first, which takes some minutes" >&2
    [ ! -f "$folder/args" ] || mapfile -t stored <"$folder/args"
    [ ! -f "$folder/stdin" ] || input=$folder/stdin
    quietly "the program $1 was not proved" rt_in "$folder" run -- "${stored[@]}" <"$input"
    [ "$(sources_sum)" = "$sum" ] || fail "the sources changed while $1 was proved: run it again"
    keep "$sum" "$folder/out/$1" "$program"
}

build_replay() {
    build_program run_replay
}

# Proves the library and writes target/staticlib/libamsulfezd.a, if it is not there yet of the sources as they are. A script that calls
# other scripts exports LIBRARY_BUILT=yes after it, so that they do not ask again.
build_staticlib() {
    local library=target/staticlib/libamsulfezd.a sum
    need_rt
    [ "${LIBRARY_BUILT:-}" != yes ] || return 0
    sum=$(sources_sum) || fail "the sources could not be read"
    ! is_made "$sum" "$library" || return 0
    if [ "${OVER_CI:-}" != yes ] || ! lib_over_ci >/dev/null 2>&1; then
        [ "${OVER_CI:-}" != yes ] || echo "$me: the library is not to be built over what rt ci proved: rt lib proves it once more" >&2
        quietly "the library amsulfezd was not proved" rt_in crates/amsulfezd_c lib
    fi
    [ "$(sources_sum)" = "$sum" ] || fail "the sources changed while the library was proved: run it again"
    keep "$sum" crates/amsulfezd_c/out/libamsulfezd_c.a "$library"
}

# What rt lib does in crates/amsulfezd_c, over the libraries that rt ci has just proved and left in the crates' folders out/: it proves
# and builds this one crate. rt lib itself would prove all of them once more, one after the other, since rt ci leaves no stamps with
# them. make test says by OVER_CI=yes that the libraries there are rt ci's. What comes is the same archive to the byte.
lib_over_ci() (
    kit=$(dirname "$(dirname "$(readlink -f "$(command -v rt)")")")
    flags=(--crate-name amsulfezd_c src/lib.rt --crate-type staticlib --extern "std=$kit/rlibs/std.rlib" -L "dependency=$kit/rlibs")
    read -ra reads < <(sed -n 's/^amsulfezd_c staticlib: //p' crates.txt)
    for crate in "${reads[@]}"; do flags+=(--extern "$crate=../$crate/out/rlib/$crate.rlib"); done
    for crate in crates/*/out/rlib; do flags+=(-L "dependency=../../$crate"); done
    flags+=(--antt-project "$kit/rattle/logic/antt-project.json" --logic-built "$kit/logic_built" --toolchain "$kit/toolchain")
    mkdir -p crates/amsulfezd_c/out && cd crates/amsulfezd_c &&
        "$kit/bin/rattle" build "${flags[@]}" --jobs 2 --links amsulfezd_c= --backend llvm -o out/libamsulfezd_c.a
)

# host_cargo WORD..: cargo on the packages of hosts/rust, without the proved library.
host_cargo() {
    (
        unset AMSULFEZD_STATICLIB_DIR
        CARGO_TARGET_DIR=target/hosts cargo "$@" --release --offline --quiet --manifest-path hosts/rust/Cargo.toml
    )
}

# Sets `compile`, a C compiler with its flags.
need_c_compiler() {
    need_x86_64
    need cc gcc libc6-dev
    compile=(cc -std=c11 -O1 -Wall -Wextra -Wpedantic -Wconversion -Wshadow -Werror -Ihosts/c)
}

# c_host OUTPUT WORD..: builds a C program with the proved library.
c_host() {
    local output=$1
    shift
    mkdir -p "$(dirname "$output")"
    "${compile[@]}" "$@" target/staticlib/libamsulfezd.a -o "$output" || fail "the C host's $(basename "$output") does not build"
}

# linked_cargo WORD..: cargo on the packages of hosts/rust, with the proved library linked. Programs come to the folder `linked`.
linked=target/hosts-linked/release
linked_cargo() {
    AMSULFEZD_STATICLIB_DIR=$PWD/target/staticlib CARGO_TARGET_DIR=target/hosts-linked \
        cargo "$@" --release --offline --quiet --manifest-path hosts/rust/Cargo.toml
}

# The service desk's program is built of Debian 12's crates. hosts/rust/desk/Cargo.toml pins those that it names; the versions of
# the others are the ones that Debian has. The lock file that cargo makes of them is not kept.
registry=/usr/share/cargo/registry

# Each crate that the service desk names is there. Root can have them from Debian's packages, and with them those that they need.
need_crates() {
    local lacks
    lacks=$(lacking_crates)
    [ -n "$lacks" ] || return 0
    if [ "$(id -u)" -eq 0 ] && command -v apt-get >/dev/null 2>&1; then
        local packages=(librust-clap-dev librust-clap-complete-dev librust-console-dev librust-csv-dev librust-indicatif-dev
            librust-serde-json-dev)
        apt_install "${packages[@]}" || { apt-get update >/dev/null 2>&1 && apt_install "${packages[@]}"; } || true
        lacks=$(lacking_crates)
    fi
    [ -z "$lacks" ] || fail "the service desk needs these crates of Debian 12's packages librust-..-dev in $registry:$lacks"
}

# The crates that hosts/rust/desk/Cargo.toml pins and that are not there.
lacking_crates() {
    local pinned name version
    pinned=$(sed -n 's/^\([a-z_]*\) = .*"=\([0-9.]*\)".*/\1 \2/p' hosts/rust/desk/Cargo.toml)
    [ -n "$pinned" ] || fail "hosts/rust/desk/Cargo.toml pins no crate"
    while read -r name version; do
        [ -d "$registry/$name-$version" ] || printf ' %s-%s' "$name" "$version"
    done <<<"$pinned"
}

# desk_cargo WORD..: cargo on the service desk, with the proved library linked and Debian's crates in the place of any from a network.
desk_cargo() {
    AMSULFEZD_STATICLIB_DIR=$PWD/target/staticlib CARGO_TARGET_DIR=target/hosts-linked \
        cargo "$@" --release --offline --quiet --manifest-path hosts/rust/desk/Cargo.toml \
        --config 'source.crates-io.replace-with="debian"' --config "source.debian.directory=\"$registry\""
}

# Builds the service desk's program, where that is not done yet of the sources as they are, and sets `desk` to how it is run. A script
# that calls other scripts exports DESK_BUILT=yes after it, so that they do not ask again.
build_desk() {
    need cargo cargo
    need_crates
    build_staticlib
    [ "${DESK_BUILT:-}" = yes ] || desk_cargo build || fail "the service desk's program does not build"
    desk=$PWD/$linked/amsulfezd
}

# oracle_cargo WORD..: cargo on oracle/, into target/oracle.
oracle_cargo() {
    CARGO_TARGET_DIR=target/oracle cargo "$@" --offline --quiet --manifest-path oracle/Cargo.toml
}

# build_oracle WORD..: builds a part of oracle/; the words are cargo's.
build_oracle() {
    oracle_cargo build "$@" || fail "oracle/ does not build ($*)"
}

# The proved library is there and named for cargo, made from the sources as they are, so that no older one is compared.
need_library() {
    build_staticlib
    export AMSULFEZD_STATICLIB_DIR=$PWD/target/staticlib
}

# compare_proved COUNT PROVED PROGRAM ANSWERS FAILURE: compares the proved calls with the oracle's on what is generated, with
# the seed that SEED says, else 1, and as many as COUNT in the environment says, else the first word. Both stand in one process,
# the program PROVED of oracle/linked; with BY_PROGRAM=1 the proved calls stand in the C program ANSWERS, which the oracle's PROGRAM
# asks. The last word is what has failed where it fails.
compare_proved() {
    local seed=${SEED:-1} count=${COUNT:-$1} proved=$2 program=$3 answers=$4 failure=$5 compare
    [[ "$seed" =~ ^[0-9]{1,18}$ ]] || fail "SEED is a whole number of at most 18 digits, not '$seed'"
    [[ "$count" =~ ^[1-9][0-9]{0,17}$ ]] || fail "COUNT is a whole number above 0 of at most 18 digits, not '$count'"
    need cargo cargo
    if [ -z "${BY_PROGRAM:-}" ]; then
        need_library
        build_oracle --release -p linked
        compare=("target/oracle/release/$proved" "$seed" "$count")
    else
        need_c_compiler
        build_staticlib
        c_host "target/oracle/$answers" "oracle/linked/$answers.c"
        build_oracle --release --bin "$program"
        compare=("target/oracle/release/$program" "$seed" "$count" -- "target/oracle/$answers")
    fi
    "${compare[@]}" || fail "$failure, or did not reach all (seed $seed)"
}
