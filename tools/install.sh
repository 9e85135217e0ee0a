#!/bin/sh
# Puts the program, ymodem-tty, ymodem-judge, the manual pages and the completion below a folder.
#
# usage: install.sh PROGRAM FOLDER
set -eu
[ $# -eq 2 ] || { sed -n '2,4s/^# \{0,1\}//p' "$0" >&2; exit 2; }
here=$(CDPATH='' cd "$(dirname "$0")/.." && pwd)
share=$2/share

# Whatever the umask is, everybody may read and search what is installed.
umask 022

install -D -m 755 "$1" "$2/bin/ymodem"
for script in ymodem-tty ymodem-judge; do
    install -D -m 755 "$here/share/$script" "$2/bin/$script"
done
for page in ymodem.1 ymodem-tty.1 ymodem-judge.1; do
    install -D -m 644 "$here/share/man/$page" "$share/man/man1/$page"
done
for name in ymodem ymodem-tty ymodem-judge; do
    install -D -m 644 "$here/share/completion/$name.bash" "$share/bash-completion/completions/$name"
    install -D -m 644 "$here/share/completion/_$name" "$share/zsh/site-functions/_$name"
    install -D -m 644 "$here/share/completion/$name.fish" "$share/fish/vendor_completions.d/$name.fish"
done
