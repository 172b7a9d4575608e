#!/usr/bin/env bash
# The annotation processor of the Java door, as tools/jar writes it: a small application is compiled with
# it and run, by fields and by properties, with a generic superclass, embeddables and nested entities;
# what it makes, alone and again; and in a module that doesn't read java.compiler.
set -u
cd "$(dirname "$0")/.." || exit 1
. tests/shared.bash
needs javac "the annotation processor isn't tried"
make_folder
program=${KARZHOUL_PROGRAM-}
if [ -z "$program" ]; then
    find_programs
    program=${programs%%$'\n'*}
fi
jars=$(bash tools/jar --program "$program" --processor) || exit $?
jar=${jars%%$'\n'*}
processor=${jars##*$'\n'}
path=$(bash tools/jar --path) || exit $?
modules=clients/java/build/modules
export XDG_CACHE_HOME=$folder/cache

failed=0
fail() {
    echo "failed: $*"
    failed=1
}

# Compiled in one go; the sources that were made are kept beside it.
mkdir -p "$folder/app" "$folder/made"
javac -Xlint:all,-classfile,-processing -Werror -d "$folder/app" -s "$folder/made" -cp "$path" -processorpath "$processor" \
    tests/java-processor/house/*.java || exit 1
cp -r tests/java-processor/META-INF "$folder/app"
java -cp "$folder/app:$jar:$path" house.Main >"$folder/said" 2>&1
diff tests/java-processor/said "$folder/said" || fail "what the application prints"

# What was made: by name, with the types of the standard.
made=$(cd "$folder/made" && find . -name '*.java' | sort | tr '\n' ' ')
[ "$made" = "./house/Base_.java ./house/Contact_.java ./house/House_.java ./house/House_Room_.java ./house/Person_.java " ] ||
    fail "it made $made"
has() { grep -qF -- "$2" "$folder/made/house/$1_.java" || fail "$1_ hasn't $2"; }
has_not() { ! grep -qF -- "$2" "$folder/made/house/$1_.java" || fail "$1_ has $2"; }
has Base "SingularAttribute<house.Base, java.io.Serializable> key;"
has Base "SingularAttribute<house.Base, java.util.Date> changed;"
has Base "SingularAttribute<house.Base, java.lang.Integer> version;"
has_not Base seen
has_not Base " made;"
has Person "public abstract class Person_ extends house.Base_ {"
has Person "@StaticMetamodel(house.Person.class)"
has Person '@Generated("karzhoul.jpa.processor.StaticMetamodelProcessor")'
has Person "SingularAttribute<house.Person, java.lang.Boolean> active;"
has Person "SingularAttribute<house.Person, byte[]> picture;"
has Person "SingularAttribute<house.Person, house.Person.Mood> mood;"
has Person "SingularAttribute<house.Person, house.Contact> contact;"
has Person 'public static final String FIRST_NAME = "firstName";'
has_not Person unkept
has_not Person " key;"
has Contact "ListAttribute<house.Contact, house.House> houses;"
has House "SetAttribute<house.House, house.Person> people;"
has House "CollectionAttribute<house.House, house.House.Room> rooms;"
has House "SingularAttribute<house.House, java.net.URL> URL;"
has_not House size
has_not House shout
has House_Room "SingularAttribute<house.House.Room, house.House> house;"

# One class alone, over what was compiled before: it extends what is there, and the rest stays.
cp -r "$folder/made" "$folder/before"
javac -d "$folder/app" -s "$folder/made" -cp "$folder/app:$path" -processorpath "$processor" \
    tests/java-processor/house/Person.java || fail "one class alone"
diff -r "$folder/before" "$folder/made" || fail "one class alone makes something else"
java -cp "$folder/app:$jar:$path" house.Main | diff tests/java-processor/said - || fail "it runs otherwise after that"

# Without the processor's jar there are no such classes, and the door's own jar has no processor.
! javac -d "$folder/none" -cp "$jar:$path" tests/java-processor/house/*.java 2>/dev/null ||
    fail "it compiles without the processor"

# In a module: java.compiler isn't read, and so @Generated isn't written.
mkdir -p "$folder/module" "$folder/module-made"
cat >"$folder/module-info.java" <<'END'
module house {
    requires jakarta.persistence;
    opens house;
}
END
javac -d "$folder/module" -s "$folder/module-made" --module-path "$modules" --processor-path "$processor" \
    "$folder/module-info.java" tests/java-processor/house/*.java || fail "in a module"
! grep -rq Generated "$folder/module-made" || fail "in a module it writes @Generated"
cp -r tests/java-processor/META-INF "$folder/module"
java -p "$modules:$jar:$folder/module" --add-modules karzhoul.jpa -m house/house.Main 2>&1 | diff tests/java-processor/said - ||
    fail "what the module prints"
exit "$failed"
