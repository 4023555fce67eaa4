#!/usr/bin/env bash
# Builds the provider into a folder: `java/build.sh DIR [ARCHIVE]`. ARCHIVE is the proved static library; where it isn't
# given, that is crates/nio_c/out/libnio_c.a, which c/build.sh proves and builds. DIR gets nio.jar, libnio_java.so and
# nio.options: `java @DIR/nio.options ..` starts a Java program on the provider. It needs a JDK 17 (JAVA_HOME, else that
# of the javac on the PATH), gcc, and the toolchain's folder (KIT, else by the command rt).
set -euo pipefail
[ $# -ge 1 ] && [ $# -le 2 ] || { echo "usage: java/build.sh DIR [ARCHIVE]"; exit 2; }
here=$(cd "$(dirname "${BASH_SOURCE[0]}")" && pwd)
mkdir -p "$1"
to=$(cd "$1" && pwd)
archive=${2:-$here/../crates/nio_c/out/libnio_c.a}
[ -f "$archive" ] || { echo "there is no $archive: c/build.sh proves and builds it"; exit 2; }
KIT=${KIT:-$(dirname "$(dirname "$(readlink -f "$(command -v rt)")")")}
[ -f "$KIT/c/liblibc_c.a" ] || KIT=/opt/rattle
JAVA_HOME=${JAVA_HOME:-$(dirname "$(dirname "$(readlink -f "$(command -v javac)")")")}
CC=${CC:-gcc}

rm -rf "$to/classes" "$to/include"
"$JAVA_HOME/bin/javac" -Xlint:all -Werror -XDignore.symbol.file --add-exports java.base/sun.nio.ch=ALL-UNNAMED \
    -h "$to/include" -d "$to/classes" "$here"/src/nio/provider/*.java
"$JAVA_HOME/bin/jar" --create --file "$to/nio.jar" -C "$to/classes" .
"$CC" -std=c11 -Wall -Wextra -Werror -O2 -fPIC -fvisibility=hidden -shared -Wl,-z,defs -Wl,--exclude-libs,ALL \
    -I"$here/../c" -I"$to/include" -I"$JAVA_HOME/include" -I"$JAVA_HOME/include/linux" \
    "$here/native/table.c" "$archive" "$KIT/c/liblibc_c.a" -pthread -o "$to/libnio_java.so"
cat >"$to/nio.options" <<END
"-Xbootclasspath/a:$to/nio.jar"
--add-exports=java.base/sun.nio.ch=ALL-UNNAMED
"-Dnio.library=$to/libnio_java.so"
-Djava.nio.channels.spi.SelectorProvider=nio.provider.NioProvider
END
echo "built: java @$to/nio.options"
