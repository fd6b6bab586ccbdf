#!/bin/sh
# A log without its last line.
"$REFERENCE" "${1:-log}" | grep -v '^total'
