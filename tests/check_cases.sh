#!/bin/sh
# The cases that programs run, and what they must print, are what tools/cases.py makes of document 01's example and of the model's case files.
set -eu
cd "$(dirname "$0")/.."
python3 tools/cases.py --check
echo "the committed cases are those that tools/cases.py makes"
