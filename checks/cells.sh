# Shows that the README's figures of speed are those of the benchmarks' page, which were measured.
cd -- "$top"
python3 "$here/cells.py" README.md bench/README.md
