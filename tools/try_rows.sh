#!/usr/bin/env bash
# try_rows.sh NAME: runs the rows of the program crates/NAME, such as test_program, before any proof, in a minute or two.
set -euo pipefail
case ${1-} in
-h | --help) sed -n 's/^# //p' "$0"; exit ;;
esac
cd "$(dirname "$0")/../crates"
if [ $# -ne 1 ] || [ ! -d "$1/data" ]; then
    names=(*/data)
    echo "try_rows.sh: the name of one program with rows is wanted: ${names[*]%/data}" >&2
    exit 2
fi
cd "$1"
words=()
for file in data/*; do words+=(--data "$(basename "$file")=$file"); done
exec rt try "${words[@]}" --seconds 600 --steps 1000000000000
