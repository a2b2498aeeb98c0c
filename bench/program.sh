# shellcheck shell=sh
# The built program, and a scratch folder that is gone at the end. A script of this folder reads it with `.`.
top=$(CDPATH='' cd -- "$(dirname -- "$0")/.." && pwd)
program=$top/crates/typha/out/typha
[ -x "$program" ] || { echo "build the program first: ./typha stream </dev/null" >&2; exit 1; }
work=$(mktemp -d)
trap 'rm -rf "$work"' EXIT
