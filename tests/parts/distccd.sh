# A real distccd for the checks. Sourced by checks.sh, whose functions it calls.

# start_daemon JOBS FOLDER: starts a distccd on loopback that runs JOBS jobs at once, and sets PORT and DAEMON, its process. Its files are in the folder.
start_daemon() {
  local jobs=$1 folder=$2 log
  for PORT in $(seq 13632 13731); do
    is_taken "$PORT" && continue
    log=$folder/distccd.$PORT.log
    rm -f "$folder/distccd.$PORT" "$log"
    distccd --daemon --no-detach --listen 127.0.0.1 --allow 127.0.0.1 --port "$PORT" --jobs "$jobs" --nice 0 \
      --log-level=error --log-file="$log" --pid-file="$folder/distccd.$PORT" >/dev/null 2>&1 &
    DAEMON=$!
    # once it listens it writes its number there
    comes_up "$DAEMON" grep -sqx "$DAEMON" "$folder/distccd.$PORT" && return
    kill "$DAEMON" 2>/dev/null
    # another was faster at this port, or no other port will do either
    grep -sq 'Address already in use' "$log" || break
  done
  DAEMON=
  return 1
}

stop_daemon() {
  [ -n "${DAEMON:-}" ] && kill "$DAEMON" 2>/dev/null && wait "$DAEMON" 2>/dev/null
  DAEMON=
}
