# What the checks of tests/ and the measures of bench/ share. To be sourced by bash first of all: it goes to the top of the repository, which is TOP.
set -u
TOP=$(cd "$(dirname "${BASH_SOURCE[0]}")/../.." && pwd)
CHECK=$(basename "$(dirname "$(realpath "$0")")")/$(basename "$0")
export PYTHONPATH=$TOP/tests/parts PYTHONDONTWRITEBYTECODE=1
cd "$TOP" || exit 1
. tests/parts/distccd.sh
. tests/parts/farmd.sh
failed=0

# missing PROGRAM..: those of them that aren't installed
missing() {
  local name
  for name in "$@"; do
    command -v "$name" >/dev/null 2>&1 || printf '%s ' "$name"
  done
}

# skip REASON: ends the script if the machine lacks something
skip() {
  echo "$CHECK: skipped, since $1"
  exit 0
}

# stop REASON: ends the script if it can't go on
stop() {
  echo "$CHECK: $1"
  exit 1
}

# needs PROGRAM..: skips if one of them isn't installed
needs() {
  local absent
  absent=$(missing "$@")
  [ -z "$absent" ] || skip "these programs are missing: $absent"
}

# programs NAME..: sets FARM, FARMD, SCC, FARM_JOBS and the like to the paths of these programs of the repository, if they don't name others, and builds
# those that aren't there
programs() {
  local name variable path
  for name in "$@"; do
    variable=${name^^}
    path=${!variable:-crates/$name/out/$name}
    # a call that asks for the version or is refused: the program is built, and does nothing
    [ -x "$path" ] || (cd "crates/$name" && rt run -- --version </dev/null >/dev/null 2>&1)
    [ -x "$path" ] || stop "the program $name can't be built"
    export "$variable=$(realpath "$path")"
  done
}

# ends what the script has running in the background, as its daemons
end_jobs() {
  local process
  for process in $(jobs -p); do kill "$process" 2>/dev/null; done
  wait 2>/dev/null
}

# work_folder [NAME..]: makes a folder, work, with a folder tmp for temporary files and folders of these names in it. It is gone when the script ends, and so
# are the daemons that it started.
work_folder() {
  local name
  work=$(mktemp -d)
  trap 'end_jobs; rm -rf "$work"' EXIT
  chmod 755 "$work"
  for name in tmp "$@"; do mkdir -m 777 "$work/$name"; done # distccd may run as a user of its own
  export TMPDIR=$work/tmp LC_ALL=C
}

# is_taken PORT: whether anybody listens at a port
is_taken() { grep -q "^ *[0-9]*: [0-9A-F]*:$(printf '%04X' "$1") [0-9A-F]*:[0-9A-F]* 0A " /proc/net/tcp; }

# comes_up PROCESS SIGN..: waits until a server of the script's own listens, which the command SIGN shows: for ten seconds at most, and while the process lives
comes_up() {
  local process=$1
  shift
  for _ in $(seq 100); do
    "$@" && return
    kill -0 "$process" 2>/dev/null || return 1
    sleep 0.1
  done
  return 1
}

# ends_within SECONDS PROCESS: waits until a process that the script started has ended, and gives its status; after SECONDS it is killed
ends_within() {
  local process=$2
  for _ in $(seq $(($1 * 10))); do
    kill -0 "$process" 2>/dev/null || { wait "$process" 2>/dev/null; return; }
    sleep 0.1
  done
  kill -9 "$process" 2>/dev/null
  wait "$process" 2>/dev/null
}

# fail WHAT: something isn't as it should be
fail() {
  echo "FAIL $1"
  failed=$((failed + 1))
}

# verdict [TEXT]: ends the check, with this text after that it passed
verdict() {
  [ "$failed" = 0 ] || stop "$failed failed"
  echo "$CHECK: passed${1:+, $1}"
  exit 0
}

# the load of the machine
load() { cut -d' ' -f1 /proc/loadavg; }
