#!/usr/bin/env bash
# The same entities on another provider: the order desk of examples/order-desk-java and the classes of
# tests/other-providers/wide store objects by the Java door, 'karzhoul export --tables' writes them as tables of
# PostgreSQL and of SQLite, and Debian's EclipseLink goes on with these. The desk's page prints there what stands on it,
# the same work has the same results, and no table or column is lacking that EclipseLink would make itself.
#
#   tests/other-providers.sh [SECONDS]   SECONDS is how long a step may take (300)
set -u
cd "$(dirname "$0")/.." || exit 1
. tests/shared.bash
needs javac "no other provider is tried"
needs sqlite3 "no other provider is tried"
needs python3 "no other provider is tried"
seconds=${1:-300}
libraries=${KARZHOUL_JAVA_LIBRARIES-/usr/share/java}
theirs=''
for each in eclipselink eclipselink-jpa-2.1-spec postgresql sqlite-jdbc; do
    if [ ! -e "$libraries/$each.jar" ]; then
        echo "$libraries/$each.jar isn't there, so no other provider is tried: apt-get install -y" \
            "--no-install-recommends libeclipselink-java libpostgresql-jdbc-java libxerial-sqlite-jdbc-java"
        exit 77
    fi
    theirs=$theirs:$libraries/$each.jar
done
make_folder
program=${KARZHOUL_PROGRAM-}
if [ -z "$program" ]; then
    find_programs
    program=${programs%%$'\n'*}
fi
program=$(realpath "$program")
classes=$(bash tools/jar --classes) || exit $?
ours=$classes:$(bash tools/jar --path) || exit $?
fast=(-XX:TieredStopAtLevel=1 -XX:+UseSerialGC)
failed=0
fail() {
    echo "failed: $*"
    failed=1
}

# Compiles classes for both providers: compiled NAME META-INF SOURCE..
compiled() {
    local name=$1 meta=$2 sources=$folder/$1-sources
    shift 2
    mkdir -p "$sources" "$folder/$name-ours" "$folder/$name-theirs/META-INF"
    cp -r "$@" "$sources"
    find "$sources" -name '*.java' >"$folder/files"
    javac "${fast[@]/#/-J}" -d "$folder/$name-ours" -cp "$ours" "@$folder/files" || exit 1
    cp -r "$meta" "$folder/$name-ours"
    # Debian's EclipseLink is of a standard that was called otherwise.
    find "$sources" -name '*.java' -exec sed -i 's/jakarta\.persistence/javax.persistence/g' {} +
    javac "${fast[@]/#/-J}" -d "$folder/$name-theirs" -cp "${theirs#:}" "@$folder/files" || exit 1
    # (it has no words of its own for SQLite, which takes those for PostgreSQL)
    local words='<properties><property name="eclipselink.target-database" value="PostgreSQL"/></properties>'
    sed -e "s,</persistence-unit>,$words&," -e 's,karzhoul\.jpa\.KarzhoulProvider,org.eclipse.persistence.jpa.PersistenceProvider,' \
        -e 's,https://jakarta\.ee/xml/ns/persistence" version="3\.0",http://xmlns.jcp.org/xml/ns/persistence" version="2.1",' \
        "$meta/persistence.xml" >"$folder/$name-theirs/META-INF/persistence.xml"
}

by_ours() {
    timeout "$seconds" java "${fast[@]}" -Dkarzhoul.program="$program" -cp "$folder/$1-ours:$ours" "${@:2}"
}

by_theirs() {
    timeout "$seconds" java "${fast[@]}" -Declipselink.logging.level=SEVERE -cp "$folder/$1-theirs$theirs" "${@:2}"
}

# PostgreSQL in a folder of its own, for this machine alone.
as_owner() {
    if [ "$(id -u)" -eq 0 ]; then runuser -u postgres -- "$@"; else "$@"; fi
}
start_postgresql() {
    initdb=$(ls /usr/lib/postgresql/*/bin/initdb 2>/dev/null | tail -n 1)
    [ -n "$initdb" ] || return 1
    bin=$(dirname "$initdb")
    place=$(mktemp -d /tmp/kz-XXXXXX)
    export PGPASSWORD=$RANDOM$RANDOM$RANDOM
    echo "$PGPASSWORD" >"$place/password"
    [ "$(id -u)" -ne 0 ] || chown -R postgres:postgres "$place"
    port=$(python3 -c 'import socket; it = socket.socket(); it.bind(("127.0.0.1", 0)); print(it.getsockname()[1])')
    (cd / && as_owner "$bin/initdb" -D "$place/data" -U postgres --auth=scram-sha-256 --pwfile="$place/password" \
        --no-sync -E UTF8 --locale=C.UTF-8 && as_owner "$bin/pg_ctl" -D "$place/data" -l "$place/log" -w -t "$seconds" \
        -o "-c listen_addresses=127.0.0.1 -p $port -c fsync=off -k $place" start) >"$folder/started" 2>&1 ||
        { cat "$folder/started"; exit 1; }
    trap 'cd / && as_owner "$bin/pg_ctl" -D "$place/data" -m immediate stop >/dev/null; rm -rf "$place" "$folder"' EXIT
}
sql() { "$bin/psql" -X -q -h "$place" -p "$port" -U postgres -v ON_ERROR_STOP=1 "$@"; }

# Writes what a store of a unit has as tables: exported NAME UNIT STORE DATABASE. It sets `url`.
exported() {
    local way=(--sqlite "$folder/$4.db")
    url="jdbc:sqlite:$folder/$4.db?date_class=TEXT"
    if [ "$database" = postgresql ]; then
        way=(--sql "$folder/$4.sql" --dialect postgresql)
        url="jdbc:postgresql://127.0.0.1:$port/$4?user=postgres&password=$PGPASSWORD"
    fi
    PYTHONPATH=clients/python timeout "$seconds" python3 -m karzhoul export "$3" --tables "$folder/$2.json" "${way[@]}" \
        --program "$program" || fail "$3 isn't exported"
    [ "$database" != postgresql ] ||
        { sql -d postgres -c "CREATE DATABASE $4" && sql -d "$4" -f "$folder/$4.sql"; } || fail "no database $4"
}

# The command line of the desk over the other provider. Each run there takes fifty numbers for its keys: the page's
# orders and invoices are told by their place.
orders=()
desk() {
    local words=() before='' status line
    for word in "$@"; do
        case "$before $word" in
            change\ * | ship\ * | cancel\ * | order\ *) words+=("${orders[word - 1]-$word}") ;;
            *) words+=("$word") ;;
        esac
        before=$word
    done
    by_theirs desk desk.Main --url "$url" "${words[@]}" >"$own/out" 2>"$own/err"
    status=$?
    line=$(sed -n 's/^order \([0-9]*\) is placed.*/\1/p' "$own/out")
    [ -z "$line" ] || orders+=("$line")
    local told=(-e 's/invoice [0-9]\+/invoice 1/')
    for line in "${!orders[@]}"; do
        told+=(-e "s/order ${orders[line]}\\b/order @$((line + 1))/")
    done
    sed "${told[@]}" -e 's/@//' "$own/err" >&2
    sed "${told[@]}" -e 's/@//' "$own/out"
    return "$status"
}

tries_the_page() {
    orders=()
    exported desk desk "$folder/page.db" "page_$database"
    for each in 3 4 5; do
        . "$folder/page/$each.sh" >"$own/said" 2>"$own/error"
        diff "$folder/page/$each.text" "$own/said" || fail "block $each of the page of the desk, over $database"
        [ ! -s "$own/error" ] || fail "block $each of the page, over $database: $(cat "$own/error")"
    done
}

tries_work() {
    exported desk desk "$folder/work.db" "work_$database"
    by_theirs desk desk.tried.Work "$url" 2 80 >"$folder/work.$database" || fail "the work over $database"
    diff "$folder/work.ours" "$folder/work.$database" || fail "other work comes of $database"
}

tries_wide_classes() {
    exported wide wide "$folder/wide.db" "wide_$database"
    by_theirs wide wide.Main "$url" show fill 4 show >"$folder/wide.$database" || fail "the wide classes over $database"
    # (the standard leaves at which version an object begins: EclipseLink has 1, and the door 0)
    sed -i 's/\(vehicle [CV]4 version\) [01]/\1 N/g' "$folder/wide.$database"
    diff "$folder/wide.ours" "$folder/wide.$database" || fail "other objects come of $database"
}

# Whether the tables have the names that EclipseLink gives: compares NAME CLASSES FILE
compares() {
    by_theirs "$1" "$2" "jdbc:sqlite:$folder/$1-made.db" create >"$folder/said" || fail "EclipseLink makes no tables of $1"
    local columns="SELECT lower(t.name || '.' || c.name) FROM sqlite_master t, pragma_table_info(t.name) c WHERE t.type = 'table' \
AND t.name NOT LIKE 'sqlite_%' ORDER BY 1"
    sqlite3 "$folder/$1-made.db" "$columns" >"$folder/made"
    [ -s "$folder/made" ] || fail "EclipseLink made no tables of $1"
    sqlite3 "$3" "$columns" >"$folder/written"
    diff "$folder/made" "$folder/written" || fail "other tables of $1 than EclipseLink makes"
}

desk=examples/order-desk-java
compiled desk $desk/META-INF $desk/desk tests/other-providers/desk
compiled wide tests/other-providers/META-INF tests/other-providers/wide
databases=sqlite
if start_postgresql; then
    databases='sqlite postgresql'
else
    leaves_out postgresql "there is no PostgreSQL on this machine: apt-get install -y --no-install-recommends postgresql"
fi

# What stands on the desk's page, block by block; the products and customers of its second are stored here.
mkdir "$folder/page" "$folder/order-desk-java"
awk -v to="$folder/page/" '/^```(sh|text)$/ { inside = substr($0, 4); n += inside == "sh"; next }
    /^```$/ { inside = "" } inside { print >(to n "." inside) }' $desk/README.md
[ -s "$folder/page/5.text" ] || fail "the page of $desk has fewer than five blocks"
samples=$folder/order-desk-java
by_ours desk desk.Main samples "$samples" --products 30 --customers 8
for each in products customers; do
    by_ours desk desk.Main --db "$folder/page.db" import $each "$samples/$each.csv" >"$folder/said" || fail "no $each"
done
cp "$folder/page.db" "$folder/work.db"
by_ours desk desk.tried.Work "karzhoul:$folder/work.db" 1 80 >"$folder/said" || fail "the work by the door"
cp "$folder/work.db" "$folder/further.db"
by_ours desk desk.tried.Work "karzhoul:$folder/further.db" 2 80 >"$folder/work.ours" || fail "more work by the door"
by_ours wide wide.Main "karzhoul:$folder/wide.db" fill 1 fill 2 fill 3 || fail "the wide classes by the door"
cp "$folder/wide.db" "$folder/wider.db"
by_ours wide wide.Main "karzhoul:$folder/wider.db" show fill 4 show >"$folder/wide.ours" || fail "the wide classes by the door"
sed -i 's/\(vehicle [CV]4 version\) [01]/\1 N/g' "$folder/wide.ours"

for each in desk wide; do
    by_ours $each karzhoul.jpa.tool.Main mapping --unit $each --tables >"$folder/$each.json" || fail "no tables of $each"
done

# Both databases at once, each in a folder of its own.
tries=()
for database in $databases; do
    own=$folder/$database
    mkdir "$own"
    (trap - EXIT
    tries_the_page
    tries_work
    tries_wide_classes
    exit "$failed") &
    tries+=($!)
done
for each in "${tries[@]}"; do
    wait "$each" || failed=1
done
compares wide wide.Main "$folder/wide_sqlite.db"
[ "$failed" -ne 0 ] || echo "the same classes go on with the same objects on EclipseLink, over $databases"
exit "$failed"
