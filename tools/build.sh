# shellcheck shell=bash
# Read at the root of the repository by the scripts, each with its name in `program`: brings the proved library, the proved engine and the
# Rust programs up to date. All it says goes to standard error, and only where there is something to do.
# What is up to date is decided by checksums and never by dates; that takes neither rt nor cargo, and writes nothing.

# The kind of machine, as the kit names it: x86_64 or aarch64. Every script has it from here.
machine=$(uname -m)
# The archive that the Rust side links.
archive=target/staticlib/libpedal.a
# The proved program that the Rust side asks through a pipe where it does not ask the archive.
engine=target/bin/engine

# Says a line on standard error.
say() {
    echo "${program:-build}: $*" >&2
}

# Says that something is left out on this machine, and why.
left_out() { # WHAT
    echo "left out on $machine: $1"
}

# Succeeds on x86-64, for which alone the kit compiles.
is_x86() {
    [ "$machine" = x86_64 ]
}

# Succeeds if the Rust side links the archive: on x86-64, unless PEDAL_LINK=no leaves it out as on any other machine.
links_archive() {
    is_x86 && [ "${PEDAL_LINK:-}" != no ]
}

# Succeeds if the repository's engine answers: where no archive is linked or PEDAL_WAY asks for it, and PEDAL_ENGINE names no other.
asks_engine() {
    { ! links_archive || [ "${PEDAL_WAY:-}" = engine ]; } && [ -z "${PEDAL_ENGINE:-}" ]
}

# Fails, and names all that are missing in one line, unless every tool is on the path.
need_tools() { # TOOL..
    local tool missing=() names
    for tool in "$@"; do
        command -v "$tool" >/dev/null || missing+=("$tool")
    done
    case ${#missing[@]} in
    0) return 0 ;;
    1) names="${missing[0]} is" ;;
    *)
        names=$(printf ', %s' "${missing[@]:0:${#missing[@]}-1}")
        names="${names#, } and ${missing[-1]} are"
        ;;
    esac
    say "$names not on the path: what is not proved and built yet needs the Rattle kit (rt), cargo and a C compiler (cc)"
    return 1
}

# The checksum of a file.
checksum() { # FILE
    sha256sum <"$1" | cut -d ' ' -f 1
}

# The checksum of many files, by name and content; their names come in any order, with a zero byte after each.
checksum_of_all() {
    LC_ALL=C sort -z | xargs -0 sha256sum | sha256sum | cut -d ' ' -f 1
}

# The checksum of all that is proved: a must-fail edit is not, nor is what rt keeps in a crate's folder out.
checksum_of_crates() {
    find crates.txt crates -regex 'crates/[^/]*/\(must-fail\|out\)' -prune -o '(' -type f -o -type l ')' -print0 | checksum_of_all
}

# The checksum of the Rust side's sources.
checksum_of_rust() {
    find rust -name target -prune -o '(' -type f -o -type l ')' -print0 | checksum_of_all
}

# The identity of the kit, or nothing where there is no kit.
kit() {
    if command -v rt >/dev/null; then
        rt version 2>/dev/null || true
    fi
}

# The folder of the kit whose rt is on the path.
kit_folder() {
    echo "${RATTLE_HOME:-$(dirname "$(dirname "$(readlink -f "$(command -v rt)")")")}"
}

# Succeeds if a file is the one that was proved, from the crates as they are. The kit must be the same only where there is one, so that
# what is proved runs where there is none.
is_proved() { # FILE
    local record crates own now
    [ -f "$1" ] && [ -f "$1.proved" ] || return 1
    mapfile -t record <"$1.proved"
    crates=$(checksum_of_crates) && own=$(checksum "$1") || return 1
    [ "${record[0]:-}" = "crates $crates" ] && [ "${record[1]:-}" = "file $own" ] || return 1
    now=$(kit)
    [ -z "$now" ] || [ "${record[2]:-}" = "kit $now" ]
}

# Copies what rt has just made to where it is wanted, and writes beside it that it is proved; not if the crates have another checksum than
# before rt ran.
keep_proved() { # MADE FILE CHECKSUM
    rm -f "$2" "$2.proved"
    if [ ! -f "$1" ]; then
        say "rt made no $1"
        return 1
    fi
    if [ "$3" != "$(checksum_of_crates)" ]; then
        say "the crates were changed while they were proved"
        return 1
    fi
    mkdir -p "$(dirname "$2")" && cp "$1" "$2" || return 1
    printf '%s\n' "crates $3" "file $(checksum "$2")" "kit $(kit)" "folder $(kit_folder)" >"$2.proved"
}

# Has rt prove a crate and make a file in the crate's folder out, and copies that to where it is wanted, unless it is proved. What was there
# goes first: none is left if rt fails.
prove() { # FILE NAME CRATE VERB MADE
    local file=$1 name=$2 folder=crates/$3 verb=$4 made=crates/$3/out/$5 crates
    if is_proved "$file"; then
        return 0
    fi
    say "proving $name; the first time this takes a while"
    rm -f "$file" "$file.proved" "$made"
    if ! {
        crates=$(checksum_of_crates) && (cd "$folder" && exec env -u RT_BACKEND rt "$verb") </dev/null >&2 9<&- &&
            keep_proved "$made" "$file" "$crates"
    }; then
        say "$name could not be proved"
        return 1
    fi
}

# Proves the library and makes the archive.
prove_library() {
    prove "$archive" "the library" pedal_c lib libpedal_c.a
}

# Proves the engine and makes it. rt also runs it once: with no question on its input it ends at once.
prove_engine() {
    prove "$engine" "the engine" engine run engine
}

# Succeeds if all is proved that answers.
all_is_proved() {
    if links_archive; then
        is_proved "$archive" || return 1
    fi
    if asks_engine; then
        is_proved "$engine" || return 1
    fi
}

# Proves what answers, as far as it is not proved.
prove_all() {
    if links_archive; then
        prove_library || return 1
    fi
    if asks_engine; then
        prove_engine || return 1
    fi
}

# Runs cargo on the Rust side: with the proved archive and no other, in the folder given, whatever the environment says.
run_cargo() { # FOLDER VERB WORDS..
    local folder=$1 verb=$2 link=(-u PEDAL_LINK)
    shift 2
    links_archive || link=(PEDAL_LINK=no)
    env -u CARGO_TARGET_DIR -u CARGO_BUILD_TARGET_DIR -u CARGO_BUILD_BUILD_DIR -u CARGO_BUILD_TARGET -u PEDAL_LIB "${link[@]}" \
        cargo "$verb" --release --offline --quiet --manifest-path rust/Cargo.toml --target-dir "$folder" "$@"
}

# Where a Rust program of the scripts stands: each is built in a folder of its own, which no other run of cargo touches.
built() { # PROGRAM
    echo "rust/target/$1/release/$1"
}

# What a Rust program is made from, one to a line: the kind of machine, the sources, and the archive where it is linked.
ingredients() {
    local linked=none rust
    if links_archive; then
        linked=$(checksum "$archive") || return 1
    fi
    rust=$(checksum_of_rust) || return 1
    printf '%s\n' "machine $machine" "rust $rust" "archive $linked"
}

# Succeeds if a Rust program is the one that was built, from all as it is.
is_built() { # PROGRAM
    local file now
    file=$(built "$1")
    [ -f "$file" ] && [ -f "$file.built" ] || return 1
    now=$(ingredients) || return 1
    [ "$(cat "$file.built")" = "$now"$'\n'"file $(checksum "$file")" ]
}

# Builds a Rust program, unless it is built. It is built from nothing, for cargo goes by dates.
build() { # PACKAGE PROGRAM
    local file now
    if is_built "$2"; then
        return 0
    fi
    say "building $2"
    file=$(built "$2")
    rm -rf "rust/target/$2"
    if ! { now=$(ingredients) && run_cargo "rust/target/$2" build --package "$1" </dev/null >&2 9<&- && [ -f "$file" ]; }; then
        say "$2 could not be built"
        return 1
    fi
    printf '%s\n' "$now" "file $(checksum "$file")" >"$file.built"
}

# Succeeds if a Rust program can be started as it is.
is_ready() { # PROGRAM
    all_is_proved && is_built "$1"
}

# Runs a command that proves or builds. Of two runs at once the second waits.
in_turn() { # COMMAND..
    {
        if command -v flock >/dev/null && ! flock --nonblock 9; then
            say "waiting for another run that proves or builds here"
            flock 9
        fi
        "$@"
    } 9<.
}

# Proves what answers, and builds a Rust program.
prove_and_build() { # PACKAGE PROGRAM
    prove_all && build "$1" "$2"
}

# Makes a Rust program ready to be started; first it looks for every tool that this takes.
make_ready() { # PACKAGE PROGRAM
    local tools=(cargo cc)
    all_is_proved || tools=(rt cargo cc)
    need_tools "${tools[@]}" || return 1
    in_turn prove_and_build "$1" "$2"
}

# Tells the program that is started next where the engine stands, wherever the checkout was when it was built; and, on a machine that runs
# the engine in the kit's emulator, where the kit was that proved it, if the environment names none.
name_engine() {
    asks_engine || return 0
    export PEDAL_ENGINE=$PWD/$engine
    if ! is_x86 && [ -z "${RATTLE_HOME:-}" ] && ! command -v rt >/dev/null; then
        RATTLE_HOME=$(sed -n 's/^folder //p' "$engine.proved")
        export RATTLE_HOME
    fi
}
