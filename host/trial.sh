#!/bin/sh
# Builds the library and the trial program, and tries the one against the naive implementation:
#   host/trial.sh SECONDS [words for the trial program, as --seed 7]
# Exit status 0 with no difference, 1 with one; where the programs cannot be built, 0 and a message.
set -eu
cd "$(dirname "$0")/.."

seconds=${1:?usage: host/trial.sh SECONDS}
shift
rm -f target/host/trial
host/build.sh --if-possible
[ -x target/host/trial ] || exit 0
emulator=$(cat target/host/emulator)
# The first program (examples/first.c) writes what it should.
# shellcheck disable=SC2086
$emulator target/host/first | diff examples/first.out -
# Nothing is read or written through a pointer where the length is 0.
# shellcheck disable=SC2086
$emulator target/host/none
# shellcheck disable=SC2086
$emulator target/host/trial --self
# shellcheck disable=SC2086
exec $emulator target/host/trial "$seconds" "$@"
