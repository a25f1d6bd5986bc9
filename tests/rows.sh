#!/bin/sh
# Builds the proved program, runs it on lines that are good or bad (lines.py), on scripts that are made (generated.py, signals.py, sockets.py), and
# then on those of tests/rows, or on those named:
# rows.sh [NAME ..]. The last line is 'N passed, M failed'.
top=$(cd "$(dirname "$0")/.." && pwd) || exit 2
program=$top/crates/compat_replay/out/compat_replay
cd "$top/crates/compat_replay" || exit 2
rt run -- run < stdin > /dev/null || { echo "rows.sh: the program isn't built" >&2; exit 1; }
python3 "$top/tests/lines.py" "$program" || exit
python3 "$top/tests/generated.py" "$program" || exit
python3 "$top/tests/signals.py" "$program" || exit
python3 "$top/tests/sockets.py" "$program" || exit
exec python3 "$top/tests/rows.py" "$program" "$@"
