# Whole builds for tests/interop, which sources this file in its working folder: many jobs and hosts, a host that is killed, and single commands.
# It uses refuses, answers, same and split of that script.

# list COUNT: writes COUNT sources, what gcc makes of each, and the list of their jobs
list() {
  local k
  for k in $(seq "$1"); do
    printf '#include <string.h>\nint unit%d(const char *s) { return (int)strlen(s) * %d; }\n' "$k" "$k" >"unit$k.c"
    split "unit$k"
    printf 'gcc -O2 -c unit%d.c -o unit%d.o\n' "$k" "$k"
  done >jobs
}

# objects NAME COUNT: whether each of the objects is there and is that of gcc
objects() {
  local k
  for k in $(seq "$2"); do same "$1" "unit$k.o" "unit$k.ref.o"; done
}

# lines NAME COUNT PLACES: whether the lines are in the order of the jobs, each with one of these places, and the total after them
lines() {
  if ! awk -v count="$2" -v places="$3" '
    NR <= count && !($1 == NR && $0 ~ "^[0-9]+ (" places ") stat 00000000$") { exit 1 }
    NR == count + 1 && $0 != "total " count " ok " count { exit 1 }
    END { if (NR != count + 1) exit 1 }' "$1.out"; then
    fail "$1: the lines"
    sed 's/^/  /' "$1.out" "$1.err" | tail -5
  fi
}

# 200 files at two hosts
FIRST_DAEMON=$DAEMON FIRST_PORT=$PORT
DAEMON=
start_daemon 4 "$work/log" || stop "a second distccd can't be started"
SECOND_PORT=$PORT
list 200
"$FARM" build --workers 8 --hosts "127.0.0.1:$FIRST_PORT/4 127.0.0.1:$SECOND_PORT/4" --no-fallback <jobs >build.out 2>build.err
echo $? >build.status
lines build 200 "remote 127.0.0.1:($FIRST_PORT|$SECOND_PORT)"
objects build 200
[ "$(cat build.status)" = 0 ] || fail "build: status $(cat build.status)"
for port in $FIRST_PORT $SECOND_PORT; do
  grep -q ":$port stat" build.out || fail "build: no job at port $port"
done

# the second host is killed in the middle: the jobs that it had, and those that dial it, are compiled here
find . -maxdepth 1 -name 'unit*.o' ! -name '*.ref.o' -delete
"$FARM" build --workers 8 --hosts "127.0.0.1:$FIRST_PORT/4 127.0.0.1:$SECOND_PORT/4" <jobs >killed.out 2>killed.err &
building=$!
for _ in $(seq 100); do
  [ "$(find . -maxdepth 1 -name 'unit*.o' ! -name '*.ref.o' | wc -l)" -ge 20 ] && break
  sleep 0.05
done
# its whole group at once, since it starts others in place of those that are gone
kill -9 -- "-$DAEMON" || { fail 'killed: the second host'; kill -9 "$DAEMON"; }
ends_within 600 "$building" || fail 'killed: the status'
wait "$DAEMON" 2>/dev/null
lines killed 200 "remote 127.0.0.1:($FIRST_PORT|$SECOND_PORT)|here"
objects killed 200
grep -q ' here stat' killed.out || fail 'killed: no job was compiled here'
DAEMON=$FIRST_DAEMON PORT=$FIRST_PORT

# single commands
DISTCC_HOSTS=$HOST DISTCC_FALLBACK=0 "$FARM" cc gcc -O2 -c good.c -o single.o >single.out 2>single.err
echo $? >single.status
: >single.want
if [ -s single.out ] || [ -s single.err ] || [ "$(cat single.status)" != 0 ]; then
  fail 'single: what is printed or answered'
fi
same single single.o good.ref.o
DISTCC_HOSTS=$HOST "$FARM" cc gcc -O2 good.c -o whole >whole.out 2>whole.err
[ $? = 0 ] && [ "$(./whole)" = hello ] || fail 'whole: a command that stays here'
DISTCC_HOSTS=127.0.0.1:1 DISTCC_FALLBACK=0 answers unlinked cc gcc -O2 -c good.c -o unlinked.o
refuses unlinked 103 'farm: failed 127.0.0.1:1 dial'

# measures of time and memory, which programs with checks at run time don't meet
if [ -z "$(missing python3)" ] && [ -z "${UNPROVED:-}" ]; then
  python3 "$TOP/tests/parts/builds.py" "$FARM" || fail "builds by many workers"
fi
