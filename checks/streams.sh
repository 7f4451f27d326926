# Runs the built program route_book over real pipes, and compares what it writes with what the model
# says: a reader that has gone, pieces with a pause between, a slow reader, one very long line, very
# many lines. No contract speaks of these.
source "$here/built.sh"
python3 "$here/streams.py" "$top/models" "$program"
