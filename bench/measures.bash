# How times, memory and their ratios are measured and printed, for bench/table.

# The processor time of a command, in nanoseconds.
spent_by() {
  local TIMEFORMAT='%3U %3S'
  { time "$@" >/dev/null 2>&1; } 2>&1 | tail -n 1 | awk '{ printf "%.0f", ($1 + $2) * 1e9 }'
}

# The lesser of two times, where 0 is none.
lesser() {
  if [ "$1" = 0 ] || [ "$2" -lt "$1" ]; then echo "$2"; else echo "$1"; fi
}

# The least processor time of three runs of a command: it says the same whatever else the machine does, within what a shared
# cache costs.
least() {
  local best=0
  for _ in 1 2 3; do best=$(lesser "$best" "$(spent_by "$@")"); done
  echo "$((best > 0 ? best : 1000000))"
}

ten_times() {
  for _ in 1 2 3 4 5 6 7 8 9 10; do "$@"; done
}

# The least times of compiling the models $2 and $3 with the program $1, of 15 rounds in each of which the first is compiled ten
# times and the second once: so both meet the machine in the same state, and the clock's thousandths of a second count less.
least_in_turn() {
  local small=0 large=0
  for _ in $(seq 15); do
    small=$(lesser "$small" "$(spent_by ten_times "$1" compile "$2" "$2.c")")
    large=$(lesser "$large" "$(spent_by "$1" compile "$3" "$3.c")")
  done
  echo "$((small / 10)) $large"
}

# The greatest memory of a command, in bytes; 0 where /usr/bin/time is missing.
memory() {
  local kilobytes=0 told
  if [ -x /usr/bin/time ]; then
    told=$(mktemp)
    /usr/bin/time -f %M -o "$told" "$@" >/dev/null 2>&1 || true
    kilobytes=$(tail -n 1 "$told")
    rm -f "$told"
  fi
  echo $((kilobytes * 1024))
}

size_of() { wc -c <"$1"; }

# A line of the table: what was measured, the figure, and what is wanted of it.
line() { printf '| %s | %s | %s |\n' "$1" "$2" "${3:-}"; }

# A time in milliseconds.
line_time() { line "$1" "$(awk -v t="$2" 'BEGIN { printf "%.1f ms", t / 1e6 }')" "${3:-}"; }

# How many times one number is another; nothing where the other is missing.
line_ratio() {
  [ "$3" = 0 ] || line "$1" "$(awk -v a="$2" -v b="$3" 'BEGIN { r = a / b; printf r < 10 ? "%.2f times" : "%.1f times", r }')" "${4:-}"
}
