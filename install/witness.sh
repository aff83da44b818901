#!/bin/sh
# Runs the installed search; `confirm` stands beside this script.
here=$(dirname "$(readlink -f "$0")")
CONFIRM=${CONFIRM:-$here/confirm} exec "$here/../share/safepoint/witness/witness" "$@"
