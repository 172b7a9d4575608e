#!/usr/bin/env bash
# The tests of the Java door, clients/java: over the program that stands built, or in `./test --quick`
# the one that ./jpa runs, or the one that KARZHOUL_PROGRAM names. They are compiled by javac alone.
#
#   tests/java.sh [CLASS..]   those of these test classes, as ReaderTest; without any, all of them
#
# It ends with 77 where the JDK or one of Debian's packages is missing, and says which.
set -u
cd "$(dirname "$0")/.." || exit 1
build=clients/java/build
libraries=${KARZHOUL_JAVA_LIBRARIES-/usr/share/java}
console=$libraries/junit-platform-console-standalone.jar
if ! command -v javac >/dev/null 2>&1 || [ ! -e "$console" ]; then
    echo "the JDK or JUnit is missing, so the Java door isn't tried:" \
        "apt-get install -y --no-install-recommends default-jdk-headless junit5"
    exit 77
fi
program=${KARZHOUL_PROGRAM-}
if [ -z "$program" ]; then
    programs=$(bash tools/built) || exit $?
    program=${programs%%$'\n'*}
fi
classes=$(bash tools/jar --classes) || exit $?
path=$(bash tools/jar --path) || exit $?
junit=$libraries/junit-jupiter-api.jar:$libraries/junit-jupiter-params.jar:$libraries/opentest4j.jar
junit=$junit:$libraries/junit-platform-commons.jar:$libraries/apiguardian-api.jar

rm -rf "$build/test-classes"
mkdir -p "$build/test-classes"
javac -J-XX:TieredStopAtLevel=1 -J-XX:+UseSerialGC -Xlint:all,-classfile,-options,-processing,-path,-rawtypes,-serial,-try -d "$build/test-classes" \
    -cp "$classes:$path:$junit" $(find clients/java/src/test/java -name '*.java') || exit 1
[ ! -d clients/java/src/test/resources ] || cp -r clients/java/src/test/resources/. "$build/test-classes"

wanted=(--scan-classpath "$build/test-classes")
for class in "$@"; do
    wanted+=(--include-classname ".*[.]$class")
done
export TZ=${TZ-Europe/Zurich}
timeout 900 java -ea -Xmx512m -XX:TieredStopAtLevel=1 -XX:+UseSerialGC -Dkarzhoul.program="$(realpath "$program")" -jar "$console" \
    -cp "$build/test-classes:$classes:$path" "${wanted[@]}" \
    --disable-banner --disable-ansi-colors --details=summary --fail-if-no-tests 2>&1
