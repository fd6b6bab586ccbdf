#!/usr/bin/env bash
# What README and the pages of docs/ say of other files is so.
set -eu
cd "$(dirname "$0")/.."
python3 tests/pages.py
