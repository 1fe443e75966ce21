# The times of the measures. To be sourced by bash, after tests/parts/checks.sh.

# the folder that FIGURES names, from the top of the repository; nothing if it isn't set
figures=
if [ -n "${FIGURES:-}" ]; then
  [ -d "$FIGURES" ] || stop "FIGURES names no folder: $FIGURES"
  figures=$(realpath "$FIGURES")
fi

# the least microseconds of each name
declare -A least

# timed NAME COMMAND..: runs a command, sets took to its microseconds, and keeps the least of those of its name
timed() {
  local name=$1 begin
  shift
  begin=${EPOCHREALTIME/./}
  "$@" || stop "$name failed"
  took=$((${EPOCHREALTIME/./} - begin))
  keep_least "$name" "$took"
}

# keep_least NAME NUMBER
keep_least() {
  if [ -z "${least[$1]:-}" ] || [ "$2" -lt "${least[$1]}" ]; then least[$1]=$2; fi
}

# ms NAME: the least of a name, in milliseconds
ms() { echo $((least[$1] / 1000)); }

# ratio NAME OTHER [PLACES]: the least of one name in that of the other, with PLACES places after the point, by default two
ratio() { awk -v a="${least[$1]}" -v b="${least[$2]}" -v n="${3:-2}" 'BEGIN { printf "%.*f", n, a / b }'; }

# file_by_gcc, file_by_split, file_by_distcc, file_by_farm NAME: how NAME.c becomes NAME.o
file_by_gcc() { gcc -c "$1.c" -o "$1.o"; }
file_by_split() { gcc -E "$1.c" -o "$1.i" && gcc -c "$1.i" -o "$1.o"; }
file_by_distcc() { distcc gcc -c "$1.c" -o "$1.o"; }
file_by_farm() { "$FARM" cc gcc -c "$1.c" -o "$1.o"; }

# list_by_farm LIST HOSTS WORKERS: builds a job list
list_by_farm() { "$FARM" build --hosts "$2" --workers "$3" --no-fallback <"$1" >/dev/null; }

# keep FILE TEXT: makes a file in the folder that FIGURES names, whole or not at all
keep() {
  local file=$figures/$1
  printf '%s\n' "$2" >"$file.part" && mv -f "$file.part" "$file" && return
  rm -f "$file.part"
  stop "what was measured can't be kept in $figures"
}

# record NAME WORD..: if FIGURES names a folder, the script is begun anew with these words. If it succeeds, what it printed goes into the file NAME.txt
# there, but for the lines of single rounds.
record() {
  local name=$1 printed ends text
  shift
  if [ -z "$figures" ] || [ -n "${RECORDED:-}" ]; then return; fi
  printed=$(mktemp)
  trap 'rm -f "$printed"' EXIT
  { echo "$(nproc) processors, load $(load), $(date +%F)"; RECORDED=yes "$TOP/bench/$(basename "$0")" "$@"; } | tee "$printed"
  ends=("${PIPESTATUS[@]}")
  [ "${ends[0]}" = 0 ] || exit "${ends[0]}"
  [ "${ends[1]}" = 0 ] && text=$(grep -v '^round ' "$printed") || stop "what was printed can't be kept"
  keep "$name.txt" "$text"
  exit 0
}
