#!/bin/sh
# The program queries beside the original: the stored query lines and answers of crates/queries, made again and compared.
#   readers.sh                           compare with crates/queries/stdin and stdout
#   readers.sh --write                   store them instead
#   readers.sh --random [COUNT [SEED]]   random lines through the original and through the proved program
set -eu
cd "$(dirname "$0")/.."

stored=crates/queries
program=crates/queries/out/queries
. compare/original.sh
over_original readers compare/readers.rs

# How many lines of two files of answers differ.
differing() {
    paste -d, "$1" "$2" | awk -F, '$1 != $2 { n++ } END { print n + 0 }'
}

case "${1:-}" in
--random)
    if [ ! -x "$program" ]; then
        echo "readers.sh: no $program: run rt run < stdin in crates/queries first." >&2
        exit 2
    fi
    python3 compare/make_queries.py "${3:-1}" "${2:-300000}" > "$made/random.in"
    "$made/readers" < "$made/random.in" > "$made/random.original"
    "$program" < "$made/random.in" > "$made/random.ours"
    n=$(differing "$made/random.original" "$made/random.ours")
    echo "compared $(wc -l < "$made/random.original") random lines, seed ${3:-1}: $n differ"
    [ "$n" = 0 ] && cmp "$made/random.original" "$made/random.ours"
    ;;
--write)
    python3 compare/make_queries.py > "$stored/stdin"
    "$made/readers" < "$stored/stdin" > "$stored/stdout"
    echo "stored $(wc -l < "$stored/stdout") lines and answers"
    ;;
"")
    python3 compare/make_queries.py > "$made/stdin"
    "$made/readers" < "$made/stdin" > "$made/stdout"
    cmp "$made/stdin" "$stored/stdin"
    cmp "$made/stdout" "$stored/stdout"
    echo "the same: $(wc -l < "$made/stdout") lines and answers"
    ;;
*)
    echo "usage: readers.sh [--write | --random [COUNT [SEED]]]" >&2
    exit 2
    ;;
esac
