#!/usr/bin/env bash
# The front of examples/nginx.conf before a server of ours, on the loopback address, with clients that say nothing or little beside fifty that
# work. It is skipped where nginx or boto3 isn't installed. It ends by itself: both are stopped at the end, and every wait has a limit.
set -u
cd "$(dirname "$0")/.."
. checks/serving.bash
nginx=$(PATH=$PATH:/usr/sbin command -v nginx) && python3 -c 'import boto3' 2>/dev/null || { echo 'front: nginx or boto3 is not installed'; echo 'front: 0 passed, 0 failed, 1 skipped'; exit 0; }
work=$(mktemp -d)
chmod 755 "$work"
trap 'kill $(jobs -p) 2>/dev/null; wait 2>/dev/null; rm -rf "$work"' EXIT
./alternator "$work/store" 0 init >/dev/null
serves 47320 ./alternator "$work/store" serve 1 100000 67108864 8 2>/dev/null || { echo 'front: no port is free'; exit 1; }
mkdir -m 777 "$work/front"
for front in $(seq 47420 47460); do
  sed "s/127.0.0.1:8000/127.0.0.1:$port/; s/127.0.0.1:8001/127.0.0.1:$front/" examples/nginx.conf >"$work/nginx.conf"
  starts 120 "$front" "$nginx" -p "$work" -c "$work/nginx.conf" 2>"$work/notes" && break
done
if timeout 900 python3 checks/front.py "$front"; then
  echo 'front: 1 passed, 0 failed'
else
  tail -n 5 "$work/notes"
  echo 'front: 0 passed, 1 failed'
  exit 1
fi
