# Sourced by the scripts beside it with their own words. It sets `program` to the path of the program that they try: of the
# first word, for a trial, or else of the one that the checkout has, which is built first where its sources have changed.
if [ -n "${1-}" ]; then
    program=$(realpath "$1") || exit 1
else
    program=$(cd "$(dirname "${BASH_SOURCE[0]}")/.." && pwd)
    "$program/taskflow" >/dev/null
    program=$program/out/taskflow
fi
