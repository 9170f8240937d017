#!/usr/bin/env bash
# Moves a table between two servers of ours on the loopback address with examples/move.py, and out to moto's server and back where moto is
# installed and comes up. It is skipped where boto3 isn't installed. It ends by itself: the servers are stopped at the end, and every wait has
# a limit.
set -u
cd "$(dirname "$0")/.."
. checks/serving.bash
python3 -c 'import boto3' 2>/dev/null || { echo 'move: boto3 is not installed'; echo 'move: 0 passed, 0 failed, 1 skipped'; exit 0; }
work=$(mktemp -d)
trap 'kill $(jobs -p) 2>/dev/null; wait 2>/dev/null; rm -rf "$work"' EXIT
passed=0
failed=0
# served NAME: starts a server over a store of its own, whose address it says in `served`
served() {
  ./alternator "$work/$1" 0 init >/dev/null
  serves 47220 ./alternator "$work/$1" serve 1 100000 67108864 8 2>/dev/null || { echo 'move: no port is free'; exit 1; }
  served=http://127.0.0.1:$port
}
# tries NAME URL OTHER
tries() {
  if timeout 600 python3 checks/move.py "$2" "$3" "$work/saved-$1"; then passed=$((passed + 1)); else failed=$((failed + 1)); echo "move: $1 failed"; fi
}
served one
one=$served
served two
two=$served
tries between "$one" "$two"
# moto's server, at a port that is free, which it writes down once it listens there. It takes seconds to load, and longer on a busy machine.
cat >"$work/moves.py" <<'PYTHON'
import sys, time
from moto.server import ThreadedMotoServer
server = ThreadedMotoServer(ip_address='127.0.0.1', port=0)
server.start()
with open(sys.argv[1], 'w') as file:
    file.write('%d\n' % server.get_host_and_port()[1])
time.sleep(1800)
PYTHON
if python3 -c 'import moto.server, flask' 2>/dev/null; then
  python3 "$work/moves.py" "$work/port" >/dev/null 2>"$work/notes" &
  moto=$!
  for _ in $(seq 480); do
    [ ! -s "$work/port" ] && kill -0 "$moto" 2>/dev/null || break
    sleep 0.5
  done
  if [ -s "$work/port" ]; then
    tries out "$one" "http://127.0.0.1:$(cat "$work/port")"
    tries in "http://127.0.0.1:$(cat "$work/port")" "$two"
  elif kill -0 "$moto" 2>/dev/null; then
    echo 'move: moto did not listen within 240 seconds, and its part was skipped'
  else
    echo "move: moto did not come up, and its part was skipped: $(tail -n 1 "$work/notes")"
  fi
else
  echo 'move: moto is not installed, and its part was skipped'
fi
echo "move: $passed passed, $failed failed"
[ "$failed" = 0 ]
