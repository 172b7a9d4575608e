#!/usr/bin/env bash
# sqlite3's own shell reads a file that the program wrote, and finds the cells of the first run.
set -u
cd "$(dirname "$0")/.." || exit 1
. tests/shared.bash || exit 1
needs sqlite3 "no other program reads the store's file"
find_programs
make_folder
for program in $programs; do
    store=$folder/$(basename "$program").db
    serve_first_run "$program" "$store"
    if [ "$(sqlite3 "$store" 'PRAGMA integrity_check')" != ok ]; then
        echo "sqlite3 finds the store unsound"
        exit 1
    fi
done
echo "sqlite3 reads the cells that the program wrote"
