#!/usr/bin/env bash
# Refuses each allocation in turn: of each command; or of a writer of a journal and of calls of the libraries (crates/tests_memory).
#
#   tests/refused_memory.sh program PROGRAM [STEP]            STEP: every so manieth allocation alone (1)
#   tests/refused_memory.sh libraries CALLS [STEP]
set -euo pipefail
here=$(cd -- "$(dirname -- "${BASH_SOURCE[0]}")" && pwd)
exec python3 "$here/refused_memory.py" "$@"
