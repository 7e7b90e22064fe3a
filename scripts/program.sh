# What the scripts share; each sources this file, with its own path, links followed, in `self`.
root=${self%/*}

tell() { # LINE
    printf '%s\n' "$1" >&2
}

# Ends the script: it is used wrongly, or cannot do its work.
fail() { # LINE
    tell "$1"
    exit 2
}

# The comment at the script's start is its help, and has the line that says how it is used.
case ${1-} in
-h | --help)
    sed -n '1d;/^#/!q;s/^# //p' "$self" || exit 2
    exit 0
    ;;
esac

usage() {
    fail "$(sed -n 's/^# usage:/usage:/p' "$self")"
}

# At most so many arguments, each a whole number.
numbers() { # MOST ARGUMENT...
    [ $# -le $(($1 + 1)) ] || usage
    for number; do
        case $number in
        '' | *[!0-9]*) usage ;;
        esac
    done
}

needs() { # COMMAND WHAT
    command -v "$1" >/dev/null || fail "$1 is not there: ./${self##*/} needs $2"
}

# The sources that are newer than what was made of them, one of them at most. (What rt keeps, and what it makes, is in out/.)
newer() { # FILE
    find "$root/crates.txt" "$root/crates" -name out -prune -o -type f -newer "$1" -print | head -n 1
}

# Builds a program where there is none, or a source is newer. It is proved first, with all below it, which takes some minutes.
# (rt runs it too, in its own folder.)
build() { # NAME
    program=$root/target/bin/$1
    if [ ! -x "$program" ] || [ -n "$(newer "$program")" ]; then
        needs rt "the Rattle kit to prove and build target/bin/$1"
        tell "building target/bin/$1: what is not proved yet is proved first, which can take some minutes"
        said=$( (cd "$root/crates/$1" && rt run) 2>&1 </dev/null) || fail "$said"
        mkdir -p "$root/target/bin" && cp "$root/crates/$1/out/$1" "$program" || exit 2
    fi
}

# Builds a program and runs it in a folder; what it says stays in `said`. A file that is missing there is told, no more: the
# program takes it for empty. (The slash is for a folder that is called -.)
run() { # NAME FOLDER FILE...
    [ -n "$2" ] || usage
    [ -d "$2" ] || fail "$2: no such folder"
    build "$1"
    folder=$2
    shift 2
    for file; do
        if [ ! -e "$folder/$file" ]; then
            tell "$folder/$file is not there, counts as empty"
        elif [ -d "$folder/$file" ] || [ ! -r "$folder/$file" ]; then
            tell "$folder/$file cannot be read, counts as empty"
        fi
    done
    said=$(CDPATH='' cd -- "$folder/" && "$program") || fail "$program did not end as it should"
}

# Shows what the program said. Output that nobody can read is an error, a pipe without a reader too.
show() {
    trap '' PIPE
    printf '%s\n' "$said" || exit 2
}

# Proves and builds the library, from the root, and puts it where it is linked.
archive() {
    (cd crates/dulgaverk_c && rt lib) && mkdir -p target/staticlib && cp crates/dulgaverk_c/out/libdulgaverk_c.a target/staticlib/libdulgaverk.a
}

# The same. On a terminal rt shows how far it is, elsewhere only what went wrong.
library() {
    needs rt 'the Rattle kit to prove and build the library'
    tell 'building target/staticlib/libdulgaverk.a: what is not proved yet is proved first, which can take some minutes'
    if [ -t 2 ]; then
        archive >&2 || exit 2
    else
        mkdir -p target
        archive >target/staticlib.log 2>&1 || fail "$(cat target/staticlib.log)"
    fi
}

# Builds Rust packages, from the root. On a terminal cargo shows how far it is.
packages() { # WHAT FOLDER WORD...
    needs cargo Rust
    tell "building $1"
    export CARGO_TARGET_DIR="$root/$2"
    [ -t 2 ] || export CARGO_TERM_QUIET=true
    shift 2
    cargo build --offline --manifest-path rust/Cargo.toml "$@" || exit 2
}
