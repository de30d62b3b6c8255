#!/usr/bin/env bash
# The nightly round. Called by cron or by a systemd timer (crontab, dagrun-nightly.timer):
#
#   nightly.sh              begins a round, or goes on with one that a crash cut short
#   nightly.sh --resume     only goes on with such a round, for the start of the machine
#
# A round in which something failed leaves a rescue file, and the next night starts only what is left. One in which all was done takes
# the rescue files away, so that the next night begins with the first step.
set -u
cd -- "$(dirname -- "$(readlink -f -- "${BASH_SOURCE[0]}")")" || exit 1
dagrun=${DAGRUN:-dagrun}
dag=nightly.dag

# The journal of a round that was cut short is the beginning of a run's.
if [ "${1-}" = --resume ] && [ "$("$dagrun" audit "$dag")" != 'audit no F3 Unfinished' ]; then exit 0; fi
"$dagrun" run "$dag" >last.txt 2>last.err
status=$?
if [ "$status" = 0 ]; then rm -f "$dag".rescue[0-9][0-9][0-9]; fi
exit "$status"
