# Runs the built program route_book to each of its exit statuses, and compares the status and what
# it writes on both of its outputs. No clause can show this, since a contract says nothing of what
# `main` does with the status that it was handed, nor of a real file.
source "$here/built.sh"

printf 'place 50 oak\nshow 1\n' >"$work/input"
usage='usage: route_book PLACES STOPS MARKS'
most=18446744073709551615
failed=0

# ends STATUS OUTPUT ERRORS INPUT ARGUMENT..
# The standard output goes to the file $to where that is set.
ends() {
    local status=0 want="$1|$2|$3" input=$4
    shift 4
    : >"$work/output"
    "$program" "$@" <"$input" >"${to:-$work/output}" 2>"$work/errors" || status=$?
    local got="$status|$(<"$work/output")|$(<"$work/errors")"
    if [[ $got != "$want" ]]; then
        printf 'with the arguments (%s):\n  %s\n' "$*" "$got" >&2
        printf 'where this is wanted:\n  %s\n' "$want" >&2
        failed=1
    fi
}

ends 0 $'1\n50 oak' '' "$work/input" 4 4 2
ends 0 $'full\nunknown' '' "$work/input" 0 0 0
ends 0 '' '' /dev/null 4 4 2
# A folder can be opened and not read; a full device takes nothing.
ends 1 '' 'read failed' / 4 4 2
to=/dev/full ends 1 '' 'write failed' "$work/input" 4 4 2
ends 2 '' "$usage" "$work/input"
ends 2 '' "$usage" "$work/input" 4 4
ends 2 '' "$usage" "$work/input" 4 4 2 1
ends 2 '' "$usage" "$work/input" 4 04 2
ends 2 '' "$usage" "$work/input" 4 4 -2
# An argument that is no text.
ends 2 '' "$usage" "$work/input" 4 4 $'\xff'
ends 3 '' 'room refused: index' "$work/input" "$most" 1 0
ends 3 '' 'room refused: memory' "$work/input" "$most" 0 0
ends 3 '' 'room refused: memory' "$work/input" 100000000000000 0 0

if ((failed)); then
    exit 1
fi
echo 'each status is as it is wanted'
