# What stopped-disks and failing-disks share.

# Runs a script of this folder over the runs of tests/runs with this word in their names, with the
# library stop.c, which stops writes: over_disks NAME SCRIPT WORD
over_disks() {
    local here folders programs
    here=$(cd "$(dirname "$0")/.." && pwd) || exit 1
    if ! command -v cc >/dev/null 2>&1; then
        echo "$1: there is no C compiler 'cc' on the PATH" >&2
        exit 77
    fi
    room=$(mktemp -d) || exit 1
    trap 'rm -rf "$room"' EXIT

    cc -O1 -shared -fPIC -o "$room/stop.so" "$here/faults/stop.c" || exit 1
    programs=$(bash "$here/../tools/built") || exit $?
    shopt -s nullglob
    folders=("$here"/runs/*"$3"*/)
    if [ "${#folders[@]}" -eq 0 ]; then
        echo "$1: no run has '$3' in its name" >&2
        exit 1
    fi
    python3 "$here/faults/$2.py" "${programs%%$'\n'*}" "$room/stop.so" "${folders[@]}"
}
