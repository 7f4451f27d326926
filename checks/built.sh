# Builds the program route_book if it is not built yet, and sets `program`. What its status is, the
# caller looks at.
crate=$top/crates/route_book_program

(cd -- "$crate" && rt run -- 0 0 0 </dev/null) >"$work/log" 2>&1 || true
if ! grep -q '^rt: running ' "$work/log"; then
    cat -- "$work/log" >&2
    exit 1
fi
program=$crate/out/route_book_program
