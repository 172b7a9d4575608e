#!/usr/bin/env bash
# The clinic, examples/clinic, as its JUnit tests in tests/java-clinic ask it by HTTP: each page and each call, and
# fifty users at once, while the program is killed.
#
#   tests/java-clinic.sh [PROPERTY..]   as -Dclinic.seconds=300 -Dclinic.kills=10
#   tests/java-clinic.sh --peer [..]    the same classes on Debian's EclipseLink over H2, for those who compare:
#                                       apt-get install -y --no-install-recommends libeclipselink-java libh2-java
set -u
cd "$(dirname "$0")/.." || exit 1
. tests/shared.bash
needs javac "the clinic isn't tried"
make_folder
libraries=${KARZHOUL_JAVA_LIBRARIES-/usr/share/java}
console=$libraries/junit-platform-console-standalone.jar
if [ ! -e "$console" ]; then
    echo "$console isn't there, so the clinic isn't tried: apt-get install -y --no-install-recommends junit5"
    exit 77
fi
junit=$libraries/junit-jupiter-api.jar:$libraries/opentest4j.jar:$libraries/junit-platform-commons.jar:$libraries/apiguardian-api.jar
cp -r examples/clinic/clinic "$folder/clinic"
cp -r examples/clinic/META-INF "$folder/META-INF"
if [ "${1-}" = --peer ]; then
    shift
    path=$libraries/eclipselink.jar:$libraries/eclipselink-jpa-2.1-spec.jar:$libraries/h2.jar
    find "$folder/clinic" -name '*.java' -exec sed -i 's/jakarta\.persistence/javax.persistence/g' {} +
    cp tests/java-clinic/peer.xml "$folder/META-INF/persistence.xml"
    set -- -Dclinic.url=jdbc:h2:FOLDER/clinic -Dclinic.kills=0 "$@"
else
    program=${KARZHOUL_PROGRAM-}
    if [ -z "$program" ]; then
        find_programs
        program=${programs%%$'\n'*}
    fi
    classes=$(bash tools/jar --classes) || exit $?
    path=$classes:$(bash tools/jar --path) || exit $?
    set -- -Dkarzhoul.program="$(realpath "$program")" "$@"
fi
fast=(-J-XX:TieredStopAtLevel=1 -J-XX:+UseSerialGC)
mkdir "$folder/classes" "$folder/tests"
javac "${fast[@]}" -Xlint:all,-classfile,-path,-processing -Werror -d "$folder/classes" -cp "$path" \
    $(find "$folder/clinic" -name '*.java') || exit 1
cp -r "$folder/META-INF" "$folder/classes"
javac "${fast[@]}" -Xlint:all,-classfile,-path,-processing -Werror -d "$folder/tests" -cp "$folder/classes:$path:$junit" \
    $(find tests/java-clinic -name '*.java') || exit 1
timeout 1500 java -ea -Xmx512m -XX:TieredStopAtLevel=1 -XX:+UseSerialGC -Djava.util.logging.config.file=tests/java-clinic/logging.properties \
    "$@" -jar "$console" -cp "$folder/tests:$folder/classes:$path" --scan-classpath "$folder/tests" \
    --disable-banner --disable-ansi-colors --details=summary --fail-if-no-tests 2>&1
