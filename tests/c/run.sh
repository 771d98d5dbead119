#!/bin/sh
# Builds the archive and runs the C test: plainly, with a stack of 128 KB, and under valgrind where it is installed.
set -eu
here=$(cd "$(dirname "$0")" && pwd)
root=$(cd "$here/../.." && pwd)
out=$(mktemp -d)
trap 'rm -rf "$out"' EXIT
cd "$root/crates/player_c"
rt lib >"$out/log" 2>&1 || { cat "$out/log"; exit 1; }
cp out/libplayer_c.a "$out/libplayer.a"
cd "$here"
gcc -Wall -Wextra -Werror -I "$root/include" -o "$out/read" read.c "$out/libplayer.a"
echo "plain:"
"$out/read"
echo "stack of 128 KB:"
(ulimit -s 128; "$out/read" >"$out/log" 2>&1) || { cat "$out/log"; exit 1; }
tail -n 1 "$out/log"
if command -v valgrind >/dev/null 2>&1; then
    echo "valgrind:"
    valgrind --quiet --error-exitcode=1 "$out/read" >"$out/log" 2>&1 || { cat "$out/log"; exit 1; }
    tail -n 1 "$out/log"
else
    echo "valgrind: not installed"
fi
