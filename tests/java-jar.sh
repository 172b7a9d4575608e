#!/usr/bin/env bash
# The JAR of the Java door, as tools/jar writes it: with the program inside, which is unpacked once and
# checked by its sum; on the class path, and on the module path with an application's module that opens
# its package and with one that doesn't; with its sources and a documentation without a warning.
set -u
cd "$(dirname "$0")/.." || exit 1
. tests/shared.bash
needs javac "the Java door's JAR isn't tried"
make_folder
program=${KARZHOUL_PROGRAM-}
if [ -z "$program" ]; then
    find_programs
    program=${programs%%$'\n'*}
fi
jars=$(bash tools/jar --program "$program" --sources --javadoc) || exit $?
jar=${jars%%$'\n'*}
path=$(bash tools/jar --path) || exit $?
modules=clients/java/build/modules
export XDG_CACHE_HOME=$folder/cache

failed=0
fail() {
    echo "failed: $*"
    failed=1
}

# Whether what a command prints, in one line, is these words: prints WORDS COMMAND..
prints() {
    local wanted=$1 said
    shift
    said=$("$@" 2>&1 | tr '\n' ' ')
    [ "$said" = "$wanted " ] || fail "'$*' printed '$said', and not '$wanted'"
}

[ "$(wc -l <<<"$jars")" = 3 ] || fail "not three jars were written: $jars"
for each in $jars; do
    [ -s "$each" ] || fail "$each isn't there"
done
unzip -l "$jar" >"$folder/list" 2>/dev/null || jar tf "$jar" >"$folder/list"
for each in META-INF/services/jakarta.persistence.spi.PersistenceProvider META-INF/NOTICES module-info.class \
    karzhoul/jpa/program/jpa karzhoul/jpa/program/jpa.sha256; do
    grep -q "$each" "$folder/list" || fail "$each isn't in the JAR"
done

# An application on the class path, in a JAR of its own.
mkdir -p "$folder/app"
javac -d "$folder/app" -cp "$path" tests/java-jar/shop/*.java || exit 1
cp -r tests/java-jar/META-INF "$folder/app"
run=(java -cp "$folder/app:$jar:$path" shop.Main)
prints "Bob knows Ada" "${run[@]}" "$folder/first.db"

# The program in the cache is that of the JAR, and is written again where it isn't.
cached=$(echo "$folder"/cache/karzhoul/jpa-*)
cmp "$program" "$cached" || fail "the program in the cache is another one"
stamp=$(stat -c %Y%i "$cached")
prints "Bob knows Ada" "${run[@]}" "$folder/second.db"
[ "$(stat -c %Y%i "$cached")" = "$stamp" ] || fail "the program was unpacked twice"
echo "not a program" >"$cached"
prints "Bob knows Ada" "${run[@]}" "$folder/third.db"
cmp "$program" "$cached" || fail "a damaged program in the cache was left"
: >"$folder/file"
said=$(XDG_CACHE_HOME=$folder/file "${run[@]}" "$folder/fourth.db" 2>&1)
grep -q "the program in the JAR can't be unpacked" <<<"$said" || fail "without a cache: $said"

# The mapping of a store, without a library; by it the program and the Python client read the store.
mapping=$folder/first.json
java -jar "$jar" mapping "$folder/first.db" >"$mapping" || fail "no mapping of the first store"
prints '["Bob","Ada"]' "$program" --mapping "$mapping" --db "$folder/first.db" \
    --query "SELECT p.name, p.friend.name FROM Person p"
if command -v python3 >/dev/null 2>&1; then
    PYTHONPATH=clients/python python3 -m karzhoul show "$folder/first.db" --mapping "$mapping" --program "$program" >"$folder/shown"
    grep -q 'Ada' "$folder/shown" || fail "the Python client shows $(cat "$folder/shown")"
fi

# What isn't given or isn't there is told, with a status: told STATUS WORDS WORD..
told() {
    local status=$1 wanted=$2 said ended
    shift 2
    said=$(java -jar "$jar" "$@" 2>&1)
    ended=$?
    [ "$ended" = "$status" ] && grep -qF -- "$wanted" <<<"$said" || fail "'$*' ended with $ended, and said $said"
}
told 2 "Usage: java -jar karzhoul-jpa.jar mapping STORE"
told 2 "Usage: java -jar" mapping "$folder/first.db" --program
told 0 "Usage: java -jar" --help
told 4 "karzhoul: there is no file $folder/none.db" mapping "$folder/none.db"
"$program" --db "$folder/lines.db" </dev/null || fail "a store of lines"
told 4 "doesn't say with which classes it was written" mapping "$folder/lines.db"

# Applications in modules of their own.
javac -d "$folder/open" --module-path "$modules:$jar" tests/java-jar/open/*.java tests/java-jar/shop/*.java || exit 1
javac -d "$folder/closed" --module-path "$modules:$jar" tests/java-jar/closed/*.java tests/java-jar/shop/*.java || exit 1
cp -r tests/java-jar/META-INF "$folder/open"
cp -r tests/java-jar/META-INF "$folder/closed"
prints "Bob knows Ada" java -p "$modules:$jar:$folder/open" -m shop/shop.Main "$folder/fifth.db"
said=$(java -p "$modules:$jar:$folder/closed" --add-modules karzhoul.jpa -m shop/shop.Main "$folder/sixth.db" 2>&1)
grep -q 'shop.Person: its module doesn.t open its package. Open the package shop to karzhoul.jpa' <<<"$said" ||
    fail "a module that doesn't open its package: $said"

# The front page's example: its lines are those of examples/first-java, and it prints what stands behind them.
first=examples/first-java
awk '/^```java$/ { inside = 1; next } /^```$/ { inside = 0 } inside && NF' README.md >"$folder/lines"
[ -s "$folder/lines" ] || fail "the front page has no lines of Java"
while IFS= read -r line; do
    grep -qxF -- "$line" $first/shop/*.java || fail "the front page has '$line', and $first hasn't"
done <"$folder/lines"
mkdir -p "$folder/first"
javac -d "$folder/first" -cp "$path" $first/shop/*.java || exit 1
cp -r $first/META-INF "$folder/first"
prints "$(sed -n 's/^It prints `\(Ada [^`]*\)`.*/\1/p' README.md)" java -cp "$folder/first:$jar:$path" shop.Main

# The order desk: what its page says is what it prints, block by block.
desk=examples/order-desk-java
mkdir -p "$folder/desk"
find $desk/desk -name '*.java' >"$folder/files"
javac -Xlint:all,-classfile -Werror -d "$folder/desk" -cp "$path" "@$folder/files" || exit 1
cp -r $desk/META-INF "$folder/desk"
export TMPDIR=$folder
desk() { java -cp "$folder/desk:$jar:$path" desk.Main --db "$folder/order-desk-java/desk.db" "$@"; }
mkdir -p "$folder/order-desk-java" "$folder/page"
awk -v to="$folder/page/" '/^```(sh|text)$/ { inside = substr($0, 4); n += inside == "sh"; next }
    /^```$/ { inside = "" } inside { print >(to n "." inside) }' $desk/README.md
[ -s "$folder/page/5.text" ] || fail "the page of $desk has fewer than five blocks"
for each in 2 3 4 5; do
    . "$folder/page/$each.sh" >"$folder/said" 2>"$folder/error"
    diff "$folder/page/$each.text" "$folder/said" || fail "block $each of the page of $desk"
    [ ! -s "$folder/error" ] || fail "block $each of the page of $desk: $(cat "$folder/error")"
done
exit "$failed"
