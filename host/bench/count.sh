#!/usr/bin/env bash
# Counts the instructions of one call of the archive, by load and number of blocks; `calls.c` beside it says what each load is.
#
#     host/bench/count.sh            the archive that `.ci/archive` has put at target/staticlib/liblane.a
#     host/bench/count.sh ARCHIVE    another one, by its path from where the script is called
#
# It wants gcc and valgrind, whose callgrind counts the function with all that it calls. Shown are 200 calls by 200; the one
# call that the program makes before them is not among them.
set -eu
archive=$(realpath "${1:-$(dirname "$0")/../../target/staticlib/liblane.a}")
cd "$(dirname "$0")/../.."
calls=200

mkdir -p target
gcc -O2 -std=c99 -Wall -Wextra -Wpedantic -Wconversion -Wsign-conversion -Werror -Iinclude \
    host/bench/calls.c "$archive" -o target/calls

# collected SYMBOL LOAD BLOCKS CALLS: the instructions of a run in the function.
collected() {
    valgrind --tool=callgrind --callgrind-out-file=/dev/null --toggle-collect="$1" target/calls "$2" "$3" "$4" 2>&1 |
        awk '$2 == "Collected" { found = $4 } END { if (found == "") exit 1; print found }'
}

sha256sum "$archive" | awk '{ print "archive: sha256 " $1 }'
printf '%-10s%10s%10s%10s\n' load 1 8 64
for load in check find tidy idle working turning mixed journal; do
    case $load in
    check | find | tidy) symbol=lane_$load ;;
    journal) symbol=lane_check_journal ;;
    *) symbol=lane_scan ;;
    esac
    printf '%-10s' "$load"
    for blocks in 1 8 64; do
        all=$(collected "$symbol" "$load" "$blocks" "$calls")
        first=$(collected "$symbol" "$load" "$blocks" 0)
        printf '%10d' $(((all - first + calls / 2) / calls))
    done
    echo
done
