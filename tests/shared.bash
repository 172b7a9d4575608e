# What the scripts tests/*.sh share. Each sources it at the top of the repository.

# Whether this is a run under CI, in which nothing may be skipped.
is_ci() { [ "${CI-}" = true ] || [ "${KARZHOUL_CI-}" = 1 ]; }

# Ends as skipped where a command isn't on this machine: needs COMMAND WHAT-WAS-NOT-DONE
needs() {
    if ! command -v "$1" >/dev/null 2>&1; then
        echo "$1 is not on this machine, so $2"
        exit 77
    fi
}

# Tells what a script leaves out inside, so that ./test counts it: leaves_out NAME WHY
leaves_out() {
    echo "skipped: $1: $2"
}

# Sets `programs` to the paths of the program that the gate has built, as each of the two compilers
# makes it. Ends as skipped where it isn't built.
find_programs() {
    programs=$(bash tools/built) || exit $?
}

# Runs a command over each such program, whose path is its last word. The status is 1 where one failed.
over_each_program() {
    local failed=0 program
    find_programs
    for program in $programs; do
        echo "$(basename "$program"):"
        "$@" "$program" || failed=1
    done
    return "$failed"
}

# Sets `folder` to a folder of its own, which goes with the script.
make_folder() {
    folder=$(mktemp -d) || exit 1
    trap 'rm -rf "$folder"' EXIT
}

# Where a run's replies and cells by hand stand, and its mapping.
first=tests/runs/first-run

# Serves the first run over a store, and compares what is answered, and the cells that sqlite3 finds
# there: serve_first_run PROGRAM STORE
serve_first_run() {
    local columns="t || ', ' || lower(hex(r)) || ', ' || c || ', ' || lower(hex(v))"
    "$1" --mapping tests/mappings/flat.json --db "$2" <"$first/calls.jsonl" >"$folder/replies" || exit 1
    sqlite3 "$2" "SELECT $columns FROM cell ORDER BY t, r, c" >"$folder/found"
    diff "$first/replies.jsonl" "$folder/replies" || exit 1
    diff "$first/cells.txt" "$folder/found" || exit 1
}
