#!/usr/bin/env bash
# Follows docs/TOUR.md: each command that stands there after a $ is run, in the repository's root, and prints what stands below it.
# Part of make test.
set -euo pipefail
cd "$(dirname "$0")/.." || exit 1
me="tour"
. scripts/common.sh

build_desk
need tshark tshark
bin=target/tour-bin
rm -rf target/tour "$bin"
mkdir -p target/tour "$bin"
printf '#!/bin/sh\nexec' >"$bin/amsulfezd"
printf ' %q' "$desk" >>"$bin/amsulfezd"
printf ' "$@"\n' >>"$bin/amsulfezd"
chmod +x "$bin/amsulfezd"

# follow: runs the command that was read and compares.
count=0
command=
wanted=
follow() {
    local said
    [ -n "$command" ] || return 0
    said=$(PATH=$PWD/$bin:$PATH bash -c "$command" 2>/dev/null) || fail "this command of docs/TOUR.md fails: $command"
    [ "$said" = "${wanted%$'\n'}" ] || fail "this command of docs/TOUR.md prints otherwise: $command"$'\n'"$said"
    count=$((count + 1))
    command=
    wanted=
}

inside=
while IFS= read -r line; do
    case "$line" in
    '```console') inside=yes ;;
    '```') follow && inside= ;;
    '$ '*) if [ -n "$inside" ]; then follow && command=${line#'$ '}; fi ;;
    *) [ -z "$inside" ] || wanted+=$line$'\n' ;;
    esac
done <docs/TOUR.md
[ "$count" -ge 10 ] || fail "docs/TOUR.md has only $count commands"
echo "Tour: $count commands of docs/TOUR.md run, each prints what stands there"
