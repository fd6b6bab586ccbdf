#!/bin/sh
# The right log, and a failure.
"$REFERENCE" "${1:-log}"
exit 1
