#!/bin/sh
# page.sh PROGRAMS: an audit's page opened in Debian's chromium, as a picture to look at: host/target/page/page.png.
set -eu
here=$(cd "$(dirname "$0")" && pwd)
PATH=$(cd "$1" && pwd):$PATH
command -v chromium >/dev/null || { apt-get update -qq && apt-get install -y -qq --no-install-recommends chromium; } >&2
rm -rf "$here/target/page"
mkdir -p "$here/target/page"
cd "$here/target/page"
archive .
malxuqeed audit manifest.txt --html audit.html >verdicts 2>&1 || [ $? = 2 ]
chromium --headless --no-sandbox --disable-gpu --hide-scrollbars --window-size=1100,3200 --screenshot=page.png \
    "file://$PWD/audit.html" >browser.log 2>&1
# the page as the browser has understood it: what must be on it
chromium --headless --no-sandbox --disable-gpu --dump-dom "file://$PWD/audit.html" 2>>browser.log >page.txt
grep -q 'refused: wrong' page.txt
[ "$(grep -c '<img' page.txt)" -ge 30 ]
ls -l "$PWD/page.png" "$PWD/audit.html"
