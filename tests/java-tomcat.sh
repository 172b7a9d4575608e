#!/usr/bin/env bash
# The Java door in Tomcat 10, as Debian has it: an application with the JAR in its WEB-INF/lib, asked by
# eight threads at once; reloaded, taken away and deployed again, with the program killed meanwhile. The
# program ends with the application, and Tomcat finds none of its classes left.
set -u
cd "$(dirname "$0")/.." || exit 1
. tests/shared.bash
needs javac "the Java door in Tomcat isn't tried"
make_folder
# (480 commits at once with what else keeps a disk busy may take minutes, and they aren't what is tried here)
store=$folder
if [ -w /dev/shm ]; then
    store=$(mktemp -d /dev/shm/karzhoul.XXXXXX) || exit 1
    trap 'rm -rf "$folder" "$store"' EXIT
fi
libraries=${KARZHOUL_JAVA_LIBRARIES-/usr/share/java}
tomcat=
for each in catalina coyote api juli util util-scan servlet-api annotations-api jaspic-api jni el-api jsp-api; do
    if [ ! -e "$libraries/tomcat10-$each.jar" ]; then
        echo "$libraries/tomcat10-$each.jar isn't there, so the Java door in Tomcat isn't tried:" \
            "apt-get install -y --no-install-recommends libtomcat10-java"
        exit 77
    fi
    tomcat+=$libraries/tomcat10-$each.jar:
done
program=${KARZHOUL_PROGRAM-}
if [ -z "$program" ]; then
    find_programs
    program=${programs%%$'\n'*}
fi
jar=$(bash tools/jar --program "$program") || exit $?
path=$(bash tools/jar --path) || exit $?
export XDG_CACHE_HOME=$folder/cache

# The application as a WAR, and who serves it.
web=$folder/web/WEB-INF
mkdir -p "$web/lib" "$web/classes" "$folder/serve" "$folder/base"
javac -Xlint:all,-classfile,-path,-processing -Werror -d "$web/classes" -cp "$tomcat$jar:$path" tests/java-tomcat/shop/*.java || exit 1
cp -r tests/java-tomcat/META-INF "$web/classes"
cp "$jar" "${path%%:*}" "${path##*:}" "$web/lib"
jar --create --file "$folder/shop.war" -C "$folder/web" . || exit 1
javac -Xlint:all,-classfile,-path,-processing -Werror -d "$folder/serve" -cp "$tomcat" tests/java-tomcat/serve/*.java || exit 1
timeout 1200 java -XX:TieredStopAtLevel=1 -XX:+UseSerialGC -Dshop.store="$store/shop.db" -cp "$folder/serve:$tomcat" \
    serve.Serve "$folder/base" "$folder/shop.war" >"$folder/said" 2>"$folder/log"
status=$?
diff tests/java-tomcat/said "$folder/said" >"$folder/differs"
differs=$?
if [ "$status" != 0 ] || [ "$differs" != 0 ]; then
    # (what differs comes last, since a reader may have the end alone)
    tail -60 "$folder/log"
    echo "failed: it ended with $status, and this differs in what it prints (< is expected):"
    cat "$folder/differs"
    exit 1
fi
