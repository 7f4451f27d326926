# Runs tests that the gate does not prove: the modules of the folder $check, beside those of the
# crate of tests that they belong to, or in a crate of their own. A test is proved as code, and each
# of these would cost the gate minutes, so they run with no proof. It takes about two minutes. They
# end in .txt, since the gate lets no .rt file stand outside a crate.
tar -C "$top" --exclude=out -cf - crates crates.txt HANDLES | tar -C "$work" -xf -
case $check in
    layer-tests) crate=test_values ;;
    store-tests) crate=test_route_book ;;
    user-tests)
        crate=user_tests
        tested='example_chain example_ord promise_arena_users side_table'
        tested+=' triple_arena_chain triple_arena'
        tested+=' triple_arena_ptr'
        mkdir -p "$work/crates/$crate/src/tests"
        printf '#![tactic(auto)]\n\n#[cfg(test)]\nmod tests;\n' >"$work/crates/$crate/src/lib.rt"
        : >"$work/crates/$crate/src/tests.rt"
        echo "$crate: $tested" >>"$work/crates.txt"
        ;;
esac
tests=$work/crates/$crate/src/tests
for text in "$here/$check"/*.rt.txt; do
    name=$(basename -- "$text" .rt.txt)
    cp -- "$text" "$tests/$name.rt"
    echo "mod $name;" >>"$tests.rt"
done
(cd -- "$work/crates/$crate" && rt try --test) | tee "$work/said"
grep -q '^test result: ok' "$work/said"
