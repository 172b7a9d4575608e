#!/usr/bin/env bash
# A store of the Java door whose classes get another key and other types, which no opening brings over: the
# door prints the mappings of before and of now, the Python client brings the store over, and the door
# takes it for one of its new classes, with what is unique now.
set -u
cd "$(dirname "$0")/.." || exit 1
. tests/shared.bash
needs javac "a store of changed classes of Java isn't brought over"
make_folder
program=${KARZHOUL_PROGRAM-}
if [ -z "$program" ]; then
    find_programs
    program=${programs%%$'\n'*}
fi
jar=$(bash tools/jar --program "$program") || exit $?
path=$(bash tools/jar --path) || exit $?
export XDG_CACHE_HOME=$folder/cache PYTHONPATH=$PWD/clients/python

failed=0
fail() {
    echo "failed: $*"
    failed=1
}

# Whether the lines that a command prints are these: prints LINES COMMAND..
prints() {
    local wanted=$1 said
    shift
    said=$("$@" 2>&1)
    [ "$said" = "$wanted" ] || fail "'$*' printed '$said', and not '$wanted'"
}

for each in before after; do
    mkdir -p "$folder/$each"
    javac -d "$folder/$each" -cp "$path" tests/java-migrate/$each/shop/*.java || exit 1
    cp -r tests/java-migrate/META-INF "$folder/$each"
done
store=$folder/shop.db
now() { java -cp "$folder/after:$jar:$path" "$@"; }
prints "stored 1 and 2" java -cp "$folder/before:$jar:$path" shop.Main "$store"
prints "The store $store was written with other classes, and isn't opened:" now shop.Main "$store" false

# The mappings, and what the new classes can't tell by themselves.
java -jar "$jar" mapping "$store" >"$folder/old.json" || fail "no mapping of before"
now karzhoul.jpa.tool.Main mapping --unit shop >"$folder/new.json" || fail "no mapping of now"
migrate=(python3 -m karzhoul migrate "$store" --program "$program" --from "$folder/old.json" --mapping "$folder/new.json")
cp "$store" "$folder/copy.db"
"${migrate[@]}" >"$folder/said" 2>&1
[ $? = 1 ] || fail "without functions it ended otherwise: $(cat "$folder/said")"
cmp "$store" "$folder/copy.db" || fail "without functions the store is another one"
grep -q 'bring_over_Person(old) of a module, named by --with, is to give it' "$folder/said" ||
    fail "without functions: $(cat "$folder/said")"
# (two persons, two words, and the description that goes)
prints "5 objects are brought over; the old store is $store.before" \
    bash -c '"$@" --with tests/java-migrate/days.py --drop karzhoul_description | tail -n 1' - "${migrate[@]}"

# Until it is adopted it isn't opened; then it says by itself of which classes it is.
now shop.Main "$store" false >"$folder/said" 2>&1
grep -q "doesn't say with which classes it was written" "$folder/said" || fail "not adopted: $(cat "$folder/said")"
for adopt in true false; do
    prints "Ada 1 2001-02-03 [word of Ada]
Bob 0 1999-12-31 Ada[word of Bob]
Persistence(unique), Person Cy: it would have the born 1999-12-31 of Person Bob, and that is unique" \
        now shop.Main "$store" "$adopt"
done

# The same by one command, which has the unit take what was made.
other=$folder/other.db
prints "stored 1 and 2" java -cp "$folder/before:$jar:$path" shop.Main "$other"
cp "$other" "$folder/copy.db"
brought=(java -jar "$jar" migrate "$other" --unit shop --classes "$folder/after:$path")
for more in "" "--plan --with tests/java-migrate/days.py"; do
    # shellcheck disable=SC2086
    "${brought[@]}" $more >"$folder/said" 2>&1
    [ $? = $((${#more} == 0)) ] || fail "migrate $more ended otherwise: $(cat "$folder/said")"
    cmp "$other" "$folder/copy.db" || fail "migrate $more: the store is another one"
done
prints "5 objects are brought over; the old store is $other.before" \
    bash -c '"$@" --with tests/java-migrate/days.py | tail -n 1' - "${brought[@]}"
prints "Ada 1 2001-02-03 [word of Ada]
Bob 0 1999-12-31 Ada[word of Bob]
Persistence(unique), Person Cy: it would have the born 1999-12-31 of Person Bob, and that is unique" \
    now shop.Main "$other" false
prints "karzhoul: there is no file $folder/none.db" now karzhoul.jpa.tool.Main migrate "$folder/none.db" --unit shop

# What isn't there is told in words, and changes nothing.
cp "$other" "$folder/copy.db"
prints "karzhoul: --classes: there is no $folder/none.jar" java -jar "$jar" migrate "$other" --unit shop --classes "$folder/none.jar"
java -jar "$jar" migrate "$other" --unit shop >"$folder/said" 2>&1
grep -q "isn't on the class path: name the unit and its libraries by --classes" "$folder/said" ||
    fail "without --classes: $(cat "$folder/said")"
prints "karzhoul: $folder/none isn't there, or doesn't find the module karzhoul, which brings stores over: install the Python client \
(clients/python) or set PYTHONPATH to it, or name a Python that has it by --python" "${brought[@]}" --python "$folder/none"
cmp "$other" "$folder/copy.db" || fail "what isn't there changed the store"
exit "$failed"
