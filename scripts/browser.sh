#!/usr/bin/env bash
# Tries the pages of `amsulfezd view` in a real browser (scripts/browser.py): Debian's Chromium, without a window. PICTURES=folder
# puts pictures of the pages there, to be looked at: light, dark, zoomed, chosen, found, on paper. Not part of the gate: it needs a
# browser, which a machine that proves has no other use for.
set -euo pipefail
cd "$(dirname "$0")/.." || exit 1
me="browser"
. scripts/common.sh

need python3 python3
need chromium chromium
need chromedriver chromium-driver
build_desk
folder=target/browser
mkdir -p "$folder" ${PICTURES:+"$PICTURES"}
python3 scripts/browser.py --repeat traces/night.trace "$folder/large.trace"
"$desk" view traces/night.trace -o "$folder/night.html"
"$desk" view traces/passive/spare-logger.trace -o "$folder/passive.html"
"$desk" view traces/refused-entries.trace -o "$folder/refused.html"
"$desk" view traces/passive/await-data-response.trace -o "$folder/timeout.html"
"$desk" view "$folder/large.trace" -o "$folder/large.html"
python3 scripts/browser.py "$folder" ${PICTURES:+"$PICTURES"} || fail "the pages do not do in a browser what they should"
if [ -n "${PICTURES:-}" ] && command -v pdftoppm >/dev/null 2>&1; then
    pdftoppm -r 70 -png "$PICTURES/night.pdf" "$PICTURES/night-paper"
fi
