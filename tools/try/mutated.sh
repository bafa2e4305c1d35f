#!/usr/bin/env bash
# Hands the built program 3,000 changed inputs of all kinds that it reads: each must end in ten seconds and 2 GB with a
# status and texts that docs/COMMANDS.md names. Prints what doesn't, and then ends with status 1. `mutated.sh COUNT SEED`
# tries another number of them, from another first state.
. "$(dirname "${BASH_SOURCE[0]}")/../setup.sh"
needs_program
needs python3
python3 "$root/tools/try/mutated.py" "$tbc" "$root/examples" "${1:-3000}" "${2:-6510}"
