#!/bin/sh
# Puts an archive of the library for C, the headers and the file for pkg-config below DESTDIR and
# PREFIX, which are one folder: what uses the library looks below PREFIX.
#
# usage: install_library.sh ARCHIVE DESTDIR PREFIX
set -eu
[ $# -eq 3 ] || { sed -n '2,5s/^# \{0,1\}//p' "$0" >&2; exit 2; }
here=$(CDPATH='' cd "$(dirname "$0")/.." && pwd)
to=$2$3

# Whatever the umask is, everybody may read and search what is installed.
umask 022

# What stands for something else: in a file for pkg-config, and then in what sed puts in.
prefix=$(printf '%s\n' "$3" | sed 's/["#]/\\&/g; s/[\\&|]/\\&/g')

install -D -m 644 "$1" "$to/lib/libymodem.a"
install -D -m 644 -t "$to/include" "$here/include/ymodem.h" "$here/include/ymodem_io.h"
install -d "$to/lib/pkgconfig"
sed "s|@PREFIX@|$prefix|; s|@LIBDIR@|\${prefix}/lib|; s|@VERSION@|$("$here/tools/version.py")|" \
    "$here/include/ymodem.pc.in" > "$to/lib/pkgconfig/ymodem.pc"
chmod 644 "$to/lib/pkgconfig/ymodem.pc"
