#!/usr/bin/env bash
# The tests of segywb-library on a program, by pytest. The Debian packages that they need are installed where they are missing and this
# is root; elsewhere they are left out with a word, but never where CI is set.
# usage: tests/library.sh [PROGRAM] [WORD-OF-PYTEST..]
set -u
here=$(cd "$(dirname "$0")" && pwd)
SEGYWB=$(realpath "${1:-$here/../dist/segywb-x86_64-linux}") || exit 1
export SEGYWB PYTHONDONTWRITEBYTECODE=1
[ $# = 0 ] || shift
python=${PYTHON:-/usr/bin/python3}
needed='python3-pytest python3-numpy python3-distributed python3-dask'

missing() { for package in $needed; do dpkg-query -W -f '${Status}' "$package" 2> /dev/null | grep -q '^install ok installed' || printf '%s ' "$package"; done; }

lacking=$(missing)
if [ -n "$lacking" ] && [ "$(id -u)" = 0 ] && command -v apt-get > /dev/null; then
    { apt-get update && DEBIAN_FRONTEND=noninteractive apt-get install -y --no-install-recommends $lacking; } > /dev/null 2>&1
    lacking=$(missing)
fi
if [ -n "$lacking" ]; then
    printf 'library: left out, there is no %s\n' "$lacking"
    [ -z "${CI:-}" ] || exit 1
    exit 0
fi
# Its folders stand apart: other runs of pytest take those of the same user away, and shut them to others in the middle of a test.
room=$(mktemp -d) || exit 1
trap 'rm -rf "$room"' EXIT
# Without -X dev, under which a process is started so slowly that the tests would take twice as long.
$python -m pytest -q -p no:cacheprovider --basetemp="$room/tests" -W error::ResourceWarning -W error::pytest.PytestUnraisableExceptionWarning "$here/../python/tests_library" "$@"
