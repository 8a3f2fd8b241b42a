# What the tests of the programs share; a test names itself in `test` and sources this. It works at the repository's root, with a folder
# $dir of its own, and ends by `exit $bad`.
set -uo pipefail
cd "$(dirname "${BASH_SOURCE[0]}")/.." || exit 2
dir=$(mktemp -d)
trap 'rm -rf "$dir"' EXIT
bad=0
: >"$dir/in"

complain() {
    echo "${test:?}: $1"
    bad=1
}

# said STATUS WANTED TEXT WHAT: a command has ended with the wanted status and said the text in $dir/err
said() {
    [ "$1" -eq "$2" ] || complain "status $1, not $2: $4"
    grep -qF -- "$3" "$dir/err" || complain "no complaint '$3': $4"
}

# refuses STATUS TEXT COMMAND..: on $dir/in the command ends with the status, says the text, and prints nothing
refuses() {
    local wanted=$1 text=$2
    shift 2
    "$@" <"$dir/in" >"$dir/out" 2>"$dir/err"
    said $? "$wanted" "$text" "$*"
    [ ! -s "$dir/out" ] || complain "output beside a complaint: $*"
}

# unreadable STATUS TEXT COMMAND..: from a folder, and from closed input, the command ends with the status, says the text, and prints nothing
unreadable() {
    local wanted=$1 text=$2
    shift 2
    "$@" </ >"$dir/out" 2>"$dir/err"
    said $? "$wanted" "$text" "from a folder: $*"
    [ ! -s "$dir/out" ] || complain "output although nothing can be read: $*"
    "$@" <&- >"$dir/out" 2>"$dir/err"
    said $? "$wanted" "$text" "from closed input: $*"
    [ ! -s "$dir/out" ] || complain "output although the input is closed: $*"
}

# unwritable STATUS TEXT COMMAND..: on $dir/in, to a full disk and to closed output, the command ends with the status and says the text
unwritable() {
    local wanted=$1 text=$2
    shift 2
    "$@" <"$dir/in" >/dev/full 2>"$dir/err"
    said $? "$wanted" "$text" "to a full disk: $*"
    "$@" <"$dir/in" >&- 2>"$dir/err"
    said $? "$wanted" "$text" "to closed output: $*"
}

# clogged STATUS TEXT COMMAND..: on $dir/in, to a pipe that does not block and that nobody reads, the command ends with the status and says the
# text; what it had written by then is in $dir/out
clogged() {
    local wanted=$1 text=$2
    shift 2
    [ -x "$dir/clog" ] || cc -std=c99 -Wall -Wextra -Werror -O1 tests/clog.c -o "$dir/clog" || complain "tests/clog.c does not build"
    "$dir/clog" "$@" <"$dir/in" >"$dir/out" 2>"$dir/err"
    said $? "$wanted" "$text" "to a full pipe: $*"
}
