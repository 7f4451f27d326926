# Tries the wrong bodies that the gate does not try, those of crates/CRATE/wrong-bodies.txt: all of
# each crate that is named, or those that are named, or with no name all of them. Each is an edit of
# a crate that the prover must refuse. It prints a verdict for each, and ends with a count. With
# --fit it only sees that each text that an edit replaces stands in its file, once.
#
# A paragraph of wrong-bodies.txt is an edit: its name, a line `file: src/x.rt`, and pairs of lines
# `old: TEXT` and `new: TEXT`, which are made in turn.
#
# The edits are made in a copy, N crates side by side (2 if it is not said). Those of a crate are
# tried many at once (together.py): the first check costs what the crate costs, if the tree keeps no
# check of it, and each further one some minutes. Run it for a crate if its contracts change.
if [[ ${1:-} == --fit ]]; then
    python3 "$here/edits.py" --fit "$top"/crates/*/wrong-bodies.txt
    exit
fi
jobs=2
if [[ ${1:-} == -j ]]; then
    jobs=${2:?'a number of crates goes with -j'}
    shift 2
fi

# The crates and the names, a line each.
(($# > 0)) || set -- "$top"/crates/*/wrong-bodies.txt
for name in "$@"; do
    [[ $name != */wrong-bodies.txt ]] || name=$(basename -- "${name%/*}")
    crate=${name%%/*}
    only=${name#"$crate"}
    only=${only#/}
    if ! python3 "$here/edits.py" --has "$top/crates/$crate/wrong-bodies.txt" $only; then
        echo "checks/run: $name is no crate with wrong bodies, and no wrong body of one" >&2
        exit 2
    fi
    # No blank at the end: `xargs` would join the line to the next.
    echo "$crate${only:+ $only}"
done >"$work/wanted"

# Some edits in a copy of their own, with what the tree keeps of earlier checks.
try() {
    local room
    room=$(mktemp -d -p "$work")
    cp -- "$top/crates.txt" "$top/HANDLES" "$room/"
    tar -C "$top" -cf - crates | tar -C "$room" -xf -
    python3 "$here/together.py" "$room" "$@" || touch "$work/failed"
    rm -rf -- "$room"
}
export -f try
export work top here

xargs -P "$jobs" -L 1 bash -c 'try "$@"' try <"$work/wanted"
[[ ! -e $work/failed ]]
