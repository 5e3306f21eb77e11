#!/usr/bin/env bash
# amsulfezd.sh WORD..: the service desk's program with these words, built first where it is not yet of the sources as they are.
# make's targets are lines over it.
set -euo pipefail
words=("$@")
here=$PWD
set --
cd "$(dirname "$0")/.." || exit 1
me="amsulfezd"
. scripts/common.sh

[ -f target/staticlib/libamsulfezd.a ] ||
    echo "$me: the library is proved and the program built first, which takes some minutes" >&2
build_desk
cd "$here" || exit 1
exec "$desk" "${words[@]}"
