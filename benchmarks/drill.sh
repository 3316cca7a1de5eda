#!/usr/bin/env bash
# Prints the time of `eris drill 500` on the built program; another number may be given. `rt ci` builds the program.
set -eu
cd "$(dirname "$0")/.."
time crates/eris/out/eris drill "${1:-500}"
