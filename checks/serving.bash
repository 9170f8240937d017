# What the scripts with servers share, which read it: servers at free ports, waited for until they listen. It is no check.

# listens PROCESS PORT: whether that process listens at that port of 127.0.0.1. Where the system doesn't tell, it is taken to after a second.
listens() {
  local socket
  if [ ! -r /proc/net/tcp ] || [ ! -r "/proc/$1/fd" ]; then
    sleep 1
    kill -0 "$1" 2>/dev/null
    return
  fi
  socket=$(awk -v place="$(printf '0100007F:%04X' "$2")" '$2 == place && $4 == "0A" { print $10 }' /proc/net/tcp)
  [ -n "$socket" ] && [ -n "$(find "/proc/$1/fd" -lname "socket:\[$socket\]" 2>/dev/null)" ]
}
# starts SECONDS PORT COMMAND..: runs it beside the script, and waits until it listens at that port. Sets `server`, its process. It fails where
# the command ends before that, as one does that can't have its port, or doesn't listen within so many seconds: it is stopped then.
starts() {
  local left=$((10 * $1)) port=$2
  shift 2
  "$@" &
  server=$!
  while [ "$left" -gt 0 ] && kill -0 "$server" 2>/dev/null; do
    listens "$server" "$port" && return
    sleep 0.1
    left=$((left - 1))
  done
  kill "$server" 2>/dev/null
  wait "$server" 2>/dev/null
  return 1
}
# serves FIRST PROGRAM STORE WORD..: starts the program over a store at the first port from there on that it can have, which it sets in `port`
serves() {
  local first=$1 program=$2 store=$3
  shift 3
  for port in $(seq "$first" $((first + 40))); do
    starts 120 "$port" "$program" "$store" "$port" "$@" && return
  done
  return 1
}
