# Says what each function of a crate costs the gate: checks the crate from nothing at one job, in a
# copy, and prints the dearest functions, in seconds of the clock. With other work beside it the
# seconds grow, so they are to be compared alone. What a library takes to load counts to the
# function that needs it first: that one is dear in this list alone.
crate=${1:?'a crate goes with costs'}
count=${2:-30}
tar -C "$top" --exclude="crates/$crate/out" -cf - crates crates.txt HANDLES | tar -C "$work" -xf -
if ! (cd -- "$work/crates/$crate" && rt check --jobs 1) >"$work/said" 2>&1; then
    cat -- "$work/said" >&2
    exit 1
fi
python3 "$here/costs.py" "$work/crates/$crate/out/incremental" "$count"
