#!/usr/bin/env bash
# The Java door in Spring, as Debian has it, which is of javax.persistence: the jar that tools/jar --javax
# writes, below LocalContainerEntityManagerFactoryBean and JpaTransactionManager. A small bank prints what
# its services do, and that the program ends with Spring's context.
set -u
cd "$(dirname "$0")/.." || exit 1
. tests/shared.bash
needs javac "the Java door in Spring isn't tried"
make_folder
libraries=${KARZHOUL_JAVA_LIBRARIES-/usr/share/java}
path=
for each in spring3-{orm,transaction,context,aop,beans,core,expression,jdbc} commons-logging eclipselink-jpa-2.1-spec byte-buddy; do
    if [ ! -e "$libraries/$each.jar" ]; then
        echo "$libraries/$each.jar isn't there, so the Java door in Spring isn't tried:" \
            "apt-get install -y --no-install-recommends libspring-orm-java libspring-context-java"
        exit 77
    fi
    path+=$libraries/$each.jar:
done
program=${KARZHOUL_PROGRAM-}
if [ -z "$program" ]; then
    find_programs
    program=${programs%%$'\n'*}
fi
jars=$(bash tools/jar --program "$program" --javax) || exit $?
path+=${jars##*$'\n'}
export XDG_CACHE_HOME=$folder/cache

mkdir -p "$folder/app"
javac -Xlint:all,-classfile,-path,-processing -Werror -d "$folder/app" -cp "$path" tests/java-spring/bank/*.java || exit 1
cp -r tests/java-spring/META-INF "$folder/app"
timeout 300 java -XX:TieredStopAtLevel=1 -XX:+UseSerialGC -cp "$folder/app:$path" \
    bank.Main "$folder/bank.db" >"$folder/said" 2>"$folder/log"
status=$?
if [ "$status" != 0 ] || ! diff tests/java-spring/said "$folder/said"; then
    echo "failed: the bank ended with $status, and what it prints is otherwise"
    tail -40 "$folder/log"
    exit 1
fi
