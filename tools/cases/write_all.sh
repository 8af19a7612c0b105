#!/bin/sh
# Writes the case files whose answers come from Python: run it from anywhere.
cd "$(dirname "$0")" || exit 1
for kind in addresses configuration directives lines names parts patterns rows rules rules_drawn variables; do
    python3 "$kind.py" "../../crates/cases/data/$kind.txt" || exit 1
done
