#!/usr/bin/env bash
# Proves and builds a program, and runs it where its files lie: tools/run.sh PROGRAM [ARGUMENT..]
set -eu
program=$1
shift
cd "$(dirname "$0")/../crates/$program"
mkdir -p out
rm -f "out/$program"
# this builds it, where all of it is proved; the run that follows finds no files here
rt run > out/run.log 2>&1 || true
[ -x "out/$program" ] || { cat out/run.log >&2; exit 1; }
built=$PWD/out/$program
[ ! -d data ] || cd data
exec "$built" "$@"
