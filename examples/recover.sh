#!/bin/sh
# Goes on with a file whose writer is gone: it was killed, or the machine stopped.
#
#     examples/recover.sh FILE ROWS    ROWS is a file with all rows, a line each; FILE has the first of them
#
# First make sure that no writer runs: two at once spoil a file.
top=$(cd "$(dirname "$0")/.." && pwd -P) || exit 1
file=$1
rows=$2

# Whenever the writer stopped, what it had flushed is whole. If `check` finds otherwise, the file has other damage, and nothing is written.
"$top/h5swmr" check "$file" || exit

# The writer left its flags in the file, and `append` refuses such a file (error flags 5). This clears them: clear 5 0.
"$top/h5swmr" clear "$file" || exit

# Rows that were sent to the writer and are not in the file are lost. So we ask how many are there,
there=$("$top/h5swmr" poll "$file") || exit

# and send the others again, from the first one that is missing.
tail -n "+$((${there#rows } + 1))" "$rows" | "$top/h5swmr" append "$file"
