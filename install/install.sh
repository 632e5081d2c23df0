#!/bin/sh
# Puts the headers, the archive, the shared library, the licences, coarse.pc and the CMake package where the Makefile says. The version is read from VERSION.
set -eu
version=$(cat VERSION)
major=${version%%.*}
rest=${version#*.}
minor=${rest%%.*}
# What changes with the calls: the first number, and the second while that is 0.
abi=$major
[ "$major" != 0 ] || abi=$major.$minor

mkdir -p "$DESTDIR$INCLUDEDIR" "$DESTDIR$LIBDIR" "$DESTDIR$PKG" "$DESTDIR$CMAKE" "$DESTDIR$DOCDIR"
for file in $HEADERS; do cp "$file" "$DESTDIR$INCLUDEDIR/"; done
for file in $DOCS; do cp "$file" "$DESTDIR$DOCDIR/"; done
cp "$ARCHIVE" "$DESTDIR$LIBDIR/libcoarse.a"

# The shared library is the archive, whole. It asks for the C library alone, and nothing in it is written when it is loaded.
shared=$DESTDIR$LIBDIR/libcoarse.so
rm -f "$shared.$version"
$CC ${LDFLAGS:-} -shared -o "$shared.$version" "-Wl,-soname,libcoarse.so.$abi" -Wl,-z,defs -Wl,-z,text -Wl,--whole-archive "$ARCHIVE" -Wl,--no-whole-archive
ln -sf "libcoarse.so.$version" "$shared.$abi"
ln -sf "libcoarse.so.$abi" "$shared"

# fill NAME FOLDER: a template with its words.
fill() {
  sed -e "s|@VERSION@|$version|g" -e "s|@MAJOR@|$major|g" -e "s|@MINOR@|$minor|g" -e "s|@ABI@|$abi|g" \
    -e "s|@PREFIX@|$PREFIX|g" -e "s|@INCLUDEDIR@|$INCLUDEDIR|g" -e "s|@LIBDIR@|$LIBDIR|g" "install/$1.in" >"$DESTDIR$2/$1"
}
fill coarse.pc "$PKG"
fill CoarseConfig.cmake "$CMAKE"
fill CoarseConfigVersion.cmake "$CMAKE"
echo "coarse $version is installed in $DESTDIR$PREFIX"
