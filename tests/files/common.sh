# What the cases share: a folder of their own, in which they run, and how they ask the program.
set -u
program=$(readlink -f "$1")
launcher=$(readlink -f "$2")
here=$(dirname "$(readlink -f "$0")")
work=$(mktemp -d)
trap 'cd / && rm -rf "$work"' EXIT
trap 'exit 1' HUP INT TERM
chmod 711 "$work"
cd "$work" || exit 1

fail() {
    echo "$*"
    exit 1
}

skip() {
    echo "$*"
    exit 77
}

# Wants that a command holds: wants WHAT COMMAND..
wants() {
    what=$1
    shift
    "$@" || fail "not so: $what"
}

# Runs the program, and wants this status and this noted line, - for any: ends STATUS NOTE WORDS..
# Its replies are in the file said. Standard input is its script.
ends() {
    wanted=$1
    note=$2
    shift 2
    "$program" "$@" >said 2>noted
    is_end $? "$(cat noted)" "$*"
}

# Compares a status and a note with those that are wanted.
is_end() {
    [ "$1" -eq "$wanted" ] || fail "$3: status $1 and not $wanted; noted: $2"
    [ "$note" = - ] || [ "$2" = "$note" ] || fail "$3: noted '$2' and not '$note'"
}

# Wants that the file is a chip of so many places: is_chip FILE PLACES
is_chip() {
    [ "$(wc -c <"$1")" -eq $(($2 * 131072)) ] || fail "$1 has $(wc -c <"$1") bytes, and not those of $2 places"
}

# A script that puts a byte under name 5 and commits.
commit_of() {
    printf 'begin 0\nput 0 5 %s\ncommit 0\n' "$1"
}

# Wants that the chip lists these records: lists CHIP TEXT
lists() {
    echo 'list 0 959' >list
    ends 0 "" run "$1" <list
    [ "$(cat said)" = "$2" ] || fail "$1 lists $(tr '\n' ';' <said) and not $2"
}
