# Plays lines, broken lines and random bytes by the built program route_book, and compares its
# replies with the model's.
source "$here/built.sh"
python3 "$here/fuzz.py" "$top/models" "$program" "${1:-100}" "${2:-2500}"
