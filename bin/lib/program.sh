# shellcheck shell=bash
# For the commands of bin/: runs a command's program for the sources as they are.
#
# A proved program stands in a folder that is named by the sum of the sources it was made of, target/proved/SUM/NAME; bin/test and
# bin/build keep it there. So no edit, whatever its time, lets an old program run, and no other call replaces a program that is about to
# run. Where there is none, `rt try` runs the program without proofs: it compiles it at each call, and checks each access and each sum.

repository=$(readlink -f "${BASH_SOURCE[0]}")
repository=${repository%/bin/lib/*}
temporary=''
unfinished=''
is_said=''

say() { printf '%s: %s\n' "${0##*/}" "$*" >&2; }
fail() {
    say "$@"
    exit 1
}

command -v rt > /dev/null || fail "there is no rt on PATH: this needs the Rattle kit"

# Makes a folder for what is there only while a command runs, unless it has one, and has it removed at the end.
make_temporary() {
    [ -z "$temporary" ] || return 0
    trap 'rm -rf ${temporary:+"$temporary"} ${unfinished:+"$unfinished"}' EXIT
    # With these a signal waits for what is running, and nothing writes any more where the line above removes.
    trap 'exit 129' HUP
    trap 'exit 130' INT
    trap 'exit 143' TERM
    temporary=$(mktemp -d)
}

# Prints one sum over all that a program and its proofs are made of: the kit, the list of crates, and the names and contents of
# their files, but for what rt makes of them (out/).
sum_of_sources() {
    (
        rt version && uname -m && cd "$repository" && sha256sum crates.txt &&
            find crates -regex 'crates/[^/]*/out' -prune -o -type f -print0 | LC_ALL=C sort -z | xargs -0 sha256sum
    ) | sha256sum | cut -d ' ' -f 1
}

# Copies a file to its place, whole or not at all: only a finished copy gets the name.
keep() { # FILE PLACE
    unfinished=$2.$$
    mkdir -p "${2%/*}" && cp "$1" "$unfinished" && mv -f "$unfinished" "$2"
}

# Keeps programs that rt has just proved under the sum that was taken before it began, if that is still the sum.
keep_proved() { # SUM NAME...
    local name
    [ "$(sum_of_sources)" = "$1" ] || fail "the sources changed while they were proved"
    for name in "${@:2}"; do
        keep "$repository/crates/$name/out/$name" "$repository/target/proved/$1/$name"
    done
}

# Runs a program in the current folder, and says so where it isn't proved. PROVED_ONLY=1 requires a proved one.
run_program() { # NAME
    local program file data=() status=0
    program=$repository/target/proved/$(sum_of_sources)/$1
    if [ -x "$program" ]; then
        "$program"
        return
    fi
    [ -z "${PROVED_ONLY:-}" ] || fail "there is no proved program of the sources as they are; \`bin/build $1\` makes it"
    [ -e "$repository/crates/$1/src/main.rt" ] || fail "there is no crates/$1/src/main.rt"
    # Once, also for a command that runs two programs.
    [ -n "$is_said" ] || say "runs without proofs; \`bin/build $1\` proves it"
    is_said=1
    # rt try runs it in a folder of its own, which has copies of these files.
    for file in table.txt source.usfm nodes.bin; do
        [ ! -r "$file" ] || data+=(--data "$file=$PWD/$file")
    done
    make_temporary
    (cd "$repository/crates/$1" && rt try "${data[@]}") < /dev/null 2> "$temporary/said" || status=$?
    [ "$status" -eq 0 ] || cat "$temporary/said" >&2
    return "$status"
}

# Runs a program in the folder that a command was given.
run_in_folder() { # NAME DIR
    if [ $# -ne 2 ] || [ -z "$2" ]; then
        echo "usage: ${0##*/} DIR" >&2
        exit 2
    fi
    if [ ! -d "$2" ]; then
        say "not a folder: $2"
        exit 2
    fi
    # Said as a path, so that a name is no option of cd and isn't looked for elsewhere.
    case $2 in /*) cd "$2" || exit ;; *) cd "./$2" || exit ;; esac
    run_program "$1"
}
