# A farmd for the checks. Sourced by checks.sh, whose functions it calls.

# start_farmd LOG [WORD..]: starts farmd on loopback with these words, and sets PORT and FARMD_PROCESS. Its output goes to the file LOG, its messages to
# LOG.err. --trust-options comes first. The word `anywhere` may come in its place: farmd then listens as without --listen.
start_farmd() {
  local log=$1 trust='' listen='--listen 127.0.0.1'
  shift
  case ${1:-} in
  --trust-options) trust=$1 && shift ;;
  anywhere) listen='' && shift ;;
  esac
  for PORT in $(seq 14632 14731); do
    is_taken "$PORT" && continue
    : >"$log.err" # an earlier one may have printed this port
    # shellcheck disable=SC2086
    "$FARMD" $trust $listen --port "$PORT" "$@" >"$log" 2>"$log.err" &
    FARMD_PROCESS=$!
    comes_up "$FARMD_PROCESS" grep -q "^farmd: listens at [0-9.]*:$PORT," "$log.err" && return
    kill "$FARMD_PROCESS" 2>/dev/null
    # another was faster at this port, or no other port will do either
    grep -q 'cannot listen' "$log.err" || break
  done
  FARMD_PROCESS=
  return 1
}

# answered LOG: how many compiles a farmd has answered. A line comes after its reply.
answered() { grep -c 'gcc answered 00000000' "$1.err"; }

# stops farmd, once the runs under way are over and their folders are gone, but for 5 seconds at most: a farmd that ends in a run leaves its folder
stop_farmd() {
  local _
  for _ in $(seq 50); do
    compgen -G "$work/tmp/farm-*" >/dev/null || break
    sleep 0.1
  done
  [ -n "${FARMD_PROCESS:-}" ] && kill "$FARMD_PROCESS" 2>/dev/null && wait "$FARMD_PROCESS" 2>/dev/null
  FARMD_PROCESS=
}
