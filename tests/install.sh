#!/bin/sh
# Copies ./mvt, ./mvt-check, ./mvt-play and ./mvt-picture to PREFIX/bin, and a manual page for each to PREFIX/share/man/man1.
# Usage: tests/install.sh PREFIX, or tests/install.sh --test, which installs to a folder of its own and looks at what is there

cd "$(dirname "$0")/.." || exit 2
programs='mvt mvt-check mvt-play mvt-picture'

install_to() {
    for it in $programs; do
        if [ ! -x "./$it" ]; then
            echo "There is no ./$it to install: make mvt tools proves and builds it." >&2
            return 2
        fi
    done
    mkdir -p "$1/bin" "$1/share/man/man1" || return 2
    for it in $programs; do
        cp "./$it" "$1/bin/$it" && chmod 755 "$1/bin/$it" || return 2
        python3 docs/manual.py "./$it" >"$1/share/man/man1/$it.1" || return 2
    done
}

if [ "$1" != --test ]; then
    [ -n "$1" ] || { sed -n '3s/^# //p' "$0" >&2; exit 2; }
    install_to "$1"
    exit
fi
work=$(mktemp -d) || exit 2
trap 'rm -rf "$work"' EXIT
install_to "$work/a folder" || exit 2
differ=0
for it in $programs; do
    "$work/a folder/bin/$it" <examples/first.session >/dev/null || { echo "DIFFERS $it: it does not run"; differ=1; }
    grep -q "^${it%%-*}" "$work/a folder/share/man/man1/$it.1" || { echo "DIFFERS $it: its page does not name it"; differ=1; }
    grep -q '^\.SH OPTIONS' "$work/a folder/share/man/man1/$it.1" || { echo "DIFFERS $it: its page has no options"; differ=1; }
done
[ "$differ" = 0 ] && echo 'installed: 4 programs, 4 pages'
exit "$differ"
