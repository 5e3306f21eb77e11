#!/usr/bin/env bash
# make install [PREFIX=folder] [DESTDIR=folder]: builds the service desk's program and puts it, its manual page and what bash
# completes into PREFIX (/usr/local).
set -euo pipefail
cd "$(dirname "$0")/.." || exit 1
me="make install"
. scripts/common.sh

prefix=${PREFIX:-/usr/local}
[[ "$prefix" = /* ]] || fail "PREFIX=$prefix is not a folder's whole name"
to=${DESTDIR:-}$prefix
build_desk
made=$(mktemp -d) || fail "no temporary folder could be made"
trap 'rm -rf "$made"' EXIT
"$desk" manual >"$made/amsulfezd.1"
"$desk" completion bash >"$made/amsulfezd"
install -D -m 755 "$linked/amsulfezd" "$to/bin/amsulfezd" || fail "$to/bin/amsulfezd could not be written"
install -D -m 644 "$made/amsulfezd.1" "$to/share/man/man1/amsulfezd.1" || fail "$to/share/man could not be written"
install -D -m 644 "$made/amsulfezd" "$to/share/bash-completion/completions/amsulfezd" || fail "$to/share could not be written"
echo "$to/bin/amsulfezd"
