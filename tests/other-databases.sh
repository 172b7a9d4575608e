#!/usr/bin/env bash
# Databases that sqlite3's own shell made: one without tables gets the table of cells, one with that
# table is taken, and one that holds anything else is refused and left as it was.
set -u
cd "$(dirname "$0")/.." || exit 1
. tests/shared.bash || exit 1
needs sqlite3 "no other program made a database"
find_programs
make_folder
cell="CREATE TABLE cell (t INTEGER NOT NULL, r BLOB NOT NULL, c INTEGER NOT NULL, v BLOB NOT NULL, \
PRIMARY KEY (t, r, c)) STRICT"
other="CREATE TABLE other (a INTEGER PRIMARY KEY, b TEXT UNIQUE, c REAL); CREATE INDEX by_c ON other \
(c); CREATE VIEW seen AS SELECT b FROM other; INSERT INTO other VALUES (1, 'x', 1.5), (2, 'y', 2)"

# Makes a store by these statements.
make() {
    store=$folder/store.db
    rm -f "$store" "$store-wal" "$store-shm"
    sqlite3 "$store" "$1" >"$folder/made" || exit 1
}

# The store is refused in these words, and sqlite3 finds in it what was there.
is_refused() {
    sqlite3 "$store" .dump >"$folder/before"
    "$program" --mapping tests/mappings/flat.json --db "$store" <"$first/calls.jsonl" \
        >"$folder/replies" 2>"$folder/said"
    status=$?
    sqlite3 "$store" .dump "PRAGMA integrity_check" >"$folder/after"
    echo ok >>"$folder/before"
    if [ "$status" -ne 3 ] || [ -s "$folder/replies" ] ||
        [ "$(cat "$folder/said")" != "jpa: the database has $2"$'\n'"jpa: StoreFault" ]; then
        echo "$1: status $status, and it said '$(cat "$folder/said")'"
        exit 1
    fi
    diff "$folder/before" "$folder/after" || exit 1
}

for program in $programs; do
    for mode in delete wal; do
        make "PRAGMA journal_mode = $mode; CREATE TABLE other (a); DROP TABLE other"
        serve_first_run "$program" "$store"
        make "PRAGMA journal_mode = $mode; $cell"
        serve_first_run "$program" "$store"
        make "PRAGMA journal_mode = $mode; $other"
        is_refused "a database with other tables" "tables, indexes or views, and no table of cells"
        make "PRAGMA journal_mode = $mode; $cell; $other"
        is_refused "a database with cells and other tables" \
            "other tables, indexes or views beside its cells"
        sqlite3 "$store" "DROP VIEW seen; DROP TABLE other"
        serve_first_run "$program" "$store"
        make "PRAGMA journal_mode = $mode; CREATE TABLE cell (t INTEGER PRIMARY KEY, r, c, v)"
        is_refused "a table of another schema" "a table 'cell' that is no table of cells"
        make "PRAGMA journal_mode = $mode; $cell; CREATE INDEX by_v ON cell (v)"
        is_refused "a table with another index" "other tables, indexes or views beside its cells"
    done
done
echo "databases that sqlite3 made are taken where they hold cells or nothing, else refused and left"
