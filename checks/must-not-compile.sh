# Shows that the compiler refuses each program of must-not-compile/ with the words of its first
# line. A wrong body in the gate cannot show that, since those must compile. Each is tried with the
# pointer of its second line too, and then runs, so that it is refused for nothing else. It takes
# about two minutes. The programs end in .txt, since the gate lets no .rt file stand outside a
# crate.
libraries=(proof_marks linked_lists triple_arena_ptr triple_arena_stack triple_arena)
for library in "${libraries[@]}"; do
    mkdir -p "$work/crates/$library"
    for part in src specs proofs; do
        # A crate that is a macro alone has neither specs nor proofs.
        if [[ -d $top/crates/$library/$part ]]; then
            cp -r -- "$top/crates/$library/$part" "$work/crates/$library/"
        fi
    done
    grep "^$library:" "$top/crates.txt" >>"$work/crates.txt"
done
echo 'program: triple_arena' >>"$work/crates.txt"
cp -- "$top/HANDLES" "$work/"
mkdir -p "$work/crates/program/src"

try() {
    (cd -- "$work/crates/program" && rt try 2>&1) || true
}

failed=0
for text in "$here"/must-not-compile/*.rt.txt; do
    name=$(basename -- "$text" .rt.txt)
    words=$(sed -n '1s|^// refused: ||p' "$text")
    cp -- "$text" "$work/crates/program/src/main.rt"
    if ! try | grep -F "error[mismatched-types]: $words"; then
        echo "$name: NOT REFUSED with: $words"
        failed=1
    fi
    # The same program with a pointer of the arena's own type.
    right=$(sed -n '2s|^// runs with: ||p' "$text")
    sed "3,\$s/\b[PQ][0-9]::invalid()/$right/" "$text" >"$work/crates/program/src/main.rt"
    if ! try | grep -q 'run=ended status=0'; then
        echo "$name: refused also with the right type"
        failed=1
    fi
done
if ((failed)); then
    exit 1
fi
echo 'each program is refused'
