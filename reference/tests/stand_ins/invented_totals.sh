#!/bin/sh
# A log whose totals are those of roster A, whatever was answered.
"$REFERENCE" "${1:-log}" | sed 's/^total.*/total 2 1 2/'
