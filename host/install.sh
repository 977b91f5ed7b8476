#!/bin/sh
# Puts what is built under $PREFIX, or takes it away again; run by make install and make uninstall, which set all that is in capitals.
# Usage: install.sh places|put|remove, in this folder.
#
# Each file is written beside its place and then moved there: one that cannot be written whole is never seen, and a program that runs stays as it is.
set -u
umask 022
LC_ALL=C
export LC_ALL
number="[0-9][0-9]*"
fail() { echo "install: $*" >&2; exit 1; }

# ---- what goes where ----

files() { # COMMAND: calls it for each file with mode, source and place; a source @name is made by that function
    "$1" 644 include/pedralume.h "$INCLUDEDIR/pedralume.h"
    "$1" 644 "$ARCHIVE" "$LIBDIR/libpedralume.a"
    "$1" 755 build/libpedralume.so "$LIBDIR/libpedralume.so.$VERSION"
    "$1" 644 @pc "$LIBDIR/pkgconfig/pedralume.pc"
    for own in $PROGRAMS; do
        "$1" 755 "build/$own" "$BINDIR/pedralume-$own"
        "$1" 644 "man/pedralume-$own.1" "$MANDIR/man1/pedralume-$own.1"
    done
    "$1" 755 "$PROGRAM" "$LIBDIR/pedralume/replay"
    "$1" 755 "$WEAR" "$LIBDIR/pedralume/wear"
    for own in replay wear; do
        "$1" 755 "@$own" "$BINDIR/pedralume-$own"
        "$1" 644 "man/pedralume-$own.1" "$MANDIR/man1/pedralume-$own.1"
    done
    "$1" 644 man/pedralume.3 "$MANDIR/man3/pedralume.3"
    "$1" 644 ../docs/FORMATS.md "$DOCDIR/FORMATS.md"
    for own in examples/*.c; do "$1" 644 "$own" "$DOCDIR/$own"; done
}
links() { # COMMAND: calls it for each link with its text and place
    "$1" "libpedralume.so.$VERSION" "$LIBDIR/libpedralume.so.${VERSION%%.*}"
    "$1" "libpedralume.so.${VERSION%%.*}" "$LIBDIR/libpedralume.so"
    for function in $(functions); do "$1" pedralume.3 "$MANDIR/man3/$function.3"; done
}
functions() { # prints the names of the header's calls and helpers, which pedralume.3 describes
    sed -nE 's/^(uint64_t|static inline [a-z0-9_ ]*) \*?(pedralume_[a-z_]*)\(.*/\2/p' include/pedralume.h
}
earlier() { # prints the shared libraries of this first number that are of another version: the links lead to this one only
    for library in "$DESTDIR$LIBDIR/libpedralume.so.${VERSION%%.*}".*; do
        if [ -f "$library" ] && [ "$library" != "$DESTDIR$LIBDIR/libpedralume.so.$VERSION" ]; then echo "$library"; fi
    done
}

# ---- those that are made here ----

# A place under PREFIX is said by it, so that pkg-config can move all of them.
pc() {
    sed "s|@PREFIX@|$PREFIX|; s|@LIBDIR@|$(by_prefix "$LIBDIR")|; s|@INCLUDEDIR@|$(by_prefix "$INCLUDEDIR")|; s|@VERSION@|$VERSION|" pedralume.pc.in
}
by_prefix() { # PLACE
    case $1 in
    "$PREFIX"/*) printf '%s' "\${prefix}/${1#"$PREFIX"/}" ;;
    *) printf '%s' "$1" ;;
    esac
}
replay() { script replay "$BINDIR/pedralume-text"; }
wear() { script wear ''; }
script() { # NAME TELLER
    cat <<END && cat replay.sh
#!/bin/sh
# Made by the install, from host/install.sh and host/replay.sh.
name=pedralume-$1 program=$LIBDIR/pedralume/$1 teller=$2 version=$VERSION
ready() { [ -x "\$program" ] || fail 1 "\$program: no such program"; }
END
}

# ---- the steps ----

readable() { # MODE SOURCE PLACE
    case $2 in
    @*) ;;
    *) if [ ! -f "$2" ] || [ ! -r "$2" ]; then fail "$2: cannot be read"; fi ;;
    esac
}
no_folder() { [ ! -d "$DESTDIR$2" ] || fail "$DESTDIR$2: is a directory"; } # TEXT PLACE
as_the_sources() { # FILE COMMAND: the file is not older than what it is made from, where that is there; crates/NAME/out is what rt makes
    [ -z "$(find ../crates ../crates.txt -path '../crates/*/out' ! -path '../crates/*/*/out' -prune -o \
        -type d ! -path '../crates/*/*' -o -newer "$1" -print 2>/dev/null | head -n 1)" ] ||
        fail "$1: is older than the sources; run $2 in the project's folder"
}
put_file() { # MODE SOURCE PLACE
    place=$DESTDIR$3
    new=$place.new.$$
    mkdir -p "${place%/*}" || fail "${place%/*}: cannot be made"
    [ ! -d "$place" ] || fail "$place: is a directory"
    if ! { copy "$2" "$new" && chmod "$1" "$new" && mv -f "$new" "$place"; }; then
        rm -f "$new"
        fail "$place: cannot be written"
    fi
}
copy() { # SOURCE FILE
    case $1 in
    @*) "${1#@}" >"$2" ;;
    man/*.3) awk -f man/page.awk include/pedralume.h "$1" | sed "s/@VERSION@/$VERSION/" >"$2" ;;
    man/*) sed "s/@VERSION@/$VERSION/" "$1" >"$2" ;;
    *) cp "$1" "$2" ;;
    esac
}
put_link() { # TEXT PLACE
    ln -sf "$1" "$DESTDIR$2" || fail "$DESTDIR$2: cannot be written"
}
remove_file() { rm -f "$DESTDIR$3" || fail "$DESTDIR$3: cannot be removed"; } # MODE SOURCE PLACE
remove_link() { rm -f "$DESTDIR$2" || fail "$DESTDIR$2: cannot be removed"; } # TEXT PLACE

places() {
    for variable in PREFIX BINDIR LIBDIR INCLUDEDIR MANDIR DOCDIR; do
        value=
        eval "value=\$$variable"
        case $value in
        "") fail "$variable is empty: it must be an absolute path" ;;
        [!/]*) fail "$variable=$value: it must be an absolute path" ;;
        *[!A-Za-z0-9/._+,:@~-]*) fail "$variable=$value: only letters, digits and the signs / . _ + , : @ ~ - are taken" ;;
        esac
    done
    case $DESTDIR in
    "" | /*) ;;
    *) fail "DESTDIR=$DESTDIR: it must be empty or an absolute path" ;;
    esac
    expr "x$VERSION" : "x$number\.$number\.$number\$" >/dev/null || fail "include/pedralume.h: no version found"
}

places
case $1 in
places) ;;
put)
    # all of what is read before anything is written
    files readable
    readable - pedralume.pc.in
    readable - replay.sh
    readable - man/page.awk
    links no_folder
    as_the_sources "$ARCHIVE" "./show --version, which builds it,"
    as_the_sources "$PROGRAM" "./replay examples/listing.trace, which builds it,"
    as_the_sources "$WEAR" "./wear examples/listing.trace, which builds it,"
    files put_file
    links put_link
    earlier | while read -r library; do rm -f "$library"; done
    echo "installed under $DESTDIR$PREFIX; where programs do not find the shared library, run ldconfig or set LD_LIBRARY_PATH"
    ;;
remove)
    links remove_link
    files remove_file
    earlier | while read -r library; do rm -f "$library"; done
    # its own folders, unless someone else has put something there
    rmdir "$DESTDIR$LIBDIR/pedralume" 2>/dev/null || :
    rmdir "$DESTDIR$DOCDIR/examples" "$DESTDIR$DOCDIR" 2>/dev/null || :
    ;;
*) fail "no such step: $1" ;;
esac
