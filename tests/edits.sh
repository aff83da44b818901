#!/usr/bin/env bash
# Tries wrong bodies alone, in a copy of the repository, over what the gate keeps on this machine of its last run:
# edits.sh [--further | NAME ..]
# All are tried, or those of the crates named, or with --further those alone that the gate doesn't try by itself.
# Where nothing is kept all is proved first. The last line is `N passed, N failed, N skipped`; the status is 0 where
# each was refused.
set -euo pipefail
cd "$(dirname "$0")/.."
copy=$(mktemp -d)
trap 'rm -rf "$copy"' EXIT
# All but what is built.
find . \( -name .git -o -name out -o -name target -o -name __pycache__ \) -prune -o -type f -print0 |
    xargs -0 cp --parents -t "$copy"
cd "$copy"
rt ci > said || {
    cat said
    exit 1
}
case ${1:-} in
--further) tests/edits.py ;;
*) tests/edits.py "${@:---all}" ;;
esac
