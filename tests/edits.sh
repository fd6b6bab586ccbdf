#!/usr/bin/env bash
# The edits that the gate does not try still fit the code; tests/every_edit tries them.
cd "$(dirname "$0")/.." && python3 tests/edits.py
