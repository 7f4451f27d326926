# Plays each script over all pointer types and stacks that its headers name, where the gate plays
# over some: with no proof, by models/run, which the answers come from. SEEDS random ones come with
# each.
for name in arena chains ord copies searches store; do
    echo "$name"
    "$top/models/run" "$name" "${1:-0}" "${2:-100}"
done
