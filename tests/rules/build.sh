#!/bin/sh
# Compiles the rule files by fteqcc (Debian package fteqcc, 3343+svn3400-4 here): each NAME.src names the program and its sources.
#
#   tests/rules/build.sh            writes the .dat files
#   tests/rules/build.sh --check    compiles elsewhere and says whether the committed .dat files are what comes out
set -eu
cd "$(dirname "$0")"
here=$(pwd)
command -v fteqcc > /dev/null || { echo "build.sh: fteqcc isn't there (apt-get install fteqcc)" >&2; exit 1; }
scratch=$(mktemp -d)
trap 'rm -rf "$scratch"' EXIT
cp ./*.qc ./*.src "$scratch"
cd "$scratch"
for source in *.src; do
    name=${source%.src}
    # -Tstandard: version 6. -O0: arguments are copied by StoreV (README.md)
    case $name in
    *_optimised) words=-Tstandard ;;
    *) words='-Tstandard -O0' ;;
    esac
    # shellcheck disable=SC2086
    fteqcc $words -srcfile "$source" > "$name.log" || { cat "$name.log" >&2; exit 1; }
    if [ "${1:-}" = --check ]; then
        cmp "$name.dat" "$here/$name.dat"
    else
        cp "$name.dat" "$here/$name.dat"
    fi
done
echo "$(ls ./*.dat | wc -l) rule files compiled"
