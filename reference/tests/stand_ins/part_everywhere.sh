#!/bin/sh
# A log that names part 1 where no part is named.
"$REFERENCE" "${1:-log}" | sed -E 's/ 0 ([0-9]{4}-)/ 1 \1/'
