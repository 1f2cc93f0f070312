#!/usr/bin/env bash
# Writes the examples as rows for gles2_rows: each as it stands, with the status and the output that its last comment says.
#
#   bench/example_rows.sh >crates/gles2_rows/data/examples.rows
#
# .ci/run fails where that file is not what this writes.

set -eu
cd "$(dirname "$(readlink -f "${BASH_SOURCE[0]}")")/../examples"
echo "# The examples, with what their comments say that they print: bench/example_rows.sh."
for file in *.ring; do
    awk -v name="${file%.ring}" '
        BEGIN { print "\nrow " name }
        {
            text = $0
            gsub(/%/, "%25", text)
            print text == "" ? "|" : "| " text
        }
        /^# It prints, with status [0-9]+/ { status = $6 + 0; is_told = 1; next }
        is_told && /^#   / { output = output "| " substr(text, 5) "\n" }
        END {
            if (!is_told) { print FILENAME ": no line says what it prints" >"/dev/stderr"; exit 1 }
            printf "status %d\n%s", status, output
        }
    ' "$file"
done
