#!/bin/sh
# Compares the proved machine with richter's Rust, debug and release builds.
#
#   rust/oracle/differential.sh [PROGRAMS]    everything, PROGRAMS random programs (100,000 if not given) in each build
#   rust/oracle/differential.sh sample        writes tests/oracle/sample.txt anew
#
# It installs Debian's packages of the crates that richter uses, where they are missing, and makes the static library, where it is
# missing. Exits with 1 where anything is unexplained.
set -eu
cd "$(dirname "$0")"

packages="librust-byteorder-dev librust-num-dev librust-num-traits-dev librust-num-derive-dev librust-log-dev"
missing=
for package in $packages; do
    dpkg-query -W -f '${Status}' "$package" 2>/dev/null | grep -q ' installed$' || missing="$missing $package"
done
if [ -n "$missing" ]; then
    as_root=
    [ "$(id -u)" = 0 ] || as_root=sudo
    $as_root apt-get update
    # shellcheck disable=SC2086
    $as_root apt-get install -y --no-install-recommends $missing
fi

python3 check_carried_over.py
if [ -z "${HOST_LIBRARY_DIR:-}" ] && ! [ -f ../../crates/host_first/out/libhost_first.a ]; then
    (cd ../.. && tools/libraries)
fi

if [ "${1:-}" = sample ]; then
    cargo build --offline --quiet --release
    "${CARGO_TARGET_DIR:-target}/release/differential" sample ../../tests/oracle/sample.txt
    exit
fi

programs=${1:-100000}
bad=0
for build in release debug; do
    if [ $build = release ]; then
        cargo build --offline --quiet --release
    else
        cargo build --offline --quiet
    fi
    run="${CARGO_TARGET_DIR:-target}/$build/differential"
    rules=
    [ -d ../../tests/rules ] && rules="folder ../../tests/rules"
    for what in "facts" "story" "altered $((programs / 10))" "functions $programs" "programs $programs" \
        "cases ../../tests/model/cases/files.txt" "$rules"; do
        [ -n "$what" ] || continue
        echo
        echo "== $build build: $what =="
        # shellcheck disable=SC2086
        "$run" $what || bad=1
    done
done

echo
echo "== release build: sample =="
sample=$(mktemp)
trap 'rm -f "$sample"' EXIT
"${CARGO_TARGET_DIR:-target}/release/differential" sample "$sample"
if cmp "$sample" ../../tests/oracle/sample.txt; then
    echo "tests/oracle/sample.txt is this sample"
else
    bad=1
fi

echo
if [ $bad = 0 ]; then
    echo "unexplained 0 in both builds; facts, story and sample as expected"
else
    echo "NOT AS EXPECTED: see above"
fi
exit $bad
