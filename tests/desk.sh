#!/usr/bin/env bash
# The tests of the desk on a program, in a real browser, by pytest. The Debian packages that they need are installed where they are
# missing and this is root; elsewhere they are left out with a word, but never where CI is set. Two run beside one another where pytest-xdist
# is installed, but where words of pytest are given.
# usage: tests/desk.sh [PROGRAM] [WORD-OF-PYTEST..]
set -u
here=$(cd "$(dirname "$0")" && pwd)
SEGYWB=$(realpath "${1:-$here/../dist/segywb-x86_64-linux}") || exit 1
export SEGYWB PYTHONDONTWRITEBYTECODE=1
[ $# = 0 ] || shift
python=${PYTHON:-/usr/bin/python3}
needed='python3-pytest python3-numpy python3-aiohttp python3-plotly python3-selenium chromium chromium-driver fonts-dejavu-core eslint node-v8-compile-cache'
quicker=python3-pytest-xdist

missing() { for package in "$@"; do dpkg-query -W -f '${Status}' "$package" 2> /dev/null | grep -q '^install ok installed' || printf '%s ' "$package"; done; }

lacking=$(missing $needed)
if [ -n "$lacking" ] && [ "$(id -u)" = 0 ] && command -v apt-get > /dev/null; then
    { apt-get update && DEBIAN_FRONTEND=noninteractive apt-get install -y --no-install-recommends $lacking $quicker; } > /dev/null 2>&1
    lacking=$(missing $needed)
fi
if [ -n "$lacking" ]; then
    printf 'desk: left out, there is no %s\n' "$lacking"
    [ -z "${CI:-}" ] || exit 1
    exit 0
fi
[ $# != 0 ] || ! $python -c 'import xdist' 2> /dev/null || set -- -n 2
exec $python -X dev -m pytest -q -p no:cacheprovider "$here/../python/tests_desk" "$@"
