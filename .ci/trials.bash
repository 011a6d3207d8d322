# The head of all trials in bash, and what those of the built program share: its calls, and its C compiled by other compilers. A trial
# takes it in by one line:
#
#     . "$(dirname "$0")/trials.bash" built     where it calls the program, which is then built if it is older than its sources
#     . "$(dirname "$0")/trials.bash" unbuilt   where it doesn't
#
# It is then in `work`, an empty folder that is removed at its end; `top` is the repository.
# shellcheck shell=bash disable=SC2034 # what isn't used here is used there
set -eu
top=$(cd "$(dirname "${BASH_SOURCE[0]}")/.." && pwd)
work=$(mktemp -d)
trap 'rm -rf "$work"' EXIT
cd "$work"

fail() { echo "$(basename "$0"): $*" >&2; exit 1; }
has() { command -v "$1" >/dev/null 2>&1; }

[ "$1" = built ] || return 0

# The code has parameters that it doesn't use, so that all procedures of a kind are called in one way.
unused="-Wno-unused-parameter"
strict="-std=c99 -Wall -Wextra -Wconversion -pedantic $unused -Werror"

# The program itself: some words are answered by its script, `mdlc`.
"$top/mdlc" build || exit 1
program="$top/crates/mdlc/out/mdlc"

# In a table " / " stands between the lines of a text.
lines_of() { printf '%s' "$1" | sed 's| */ *|\n|g'; }

# A call must end with this status and put this; $1 is the status, $2 the text, and the words follow.
ends() {
  local status=0 put want=$1 text=$2
  shift 2
  put=$("$program" "$@") || status=$?
  [ "$status" = "$want" ] || fail "$*: status $status"
  [ "$put" = "$text" ] || fail "$*: $put"
}

# The model's run, with its C written to $2, must give these lines and then so many ticks and calls, and the C the same by `exec`.
# $1 is the model, $3 the trace, $4 the lines, $5 the ticks and $6 the calls.
gives() {
  local put
  put=$("$program" run "$1" "$2" "$3") || fail "$1 isn't run: $put"
  [ "$(printf '%s\n' "$put" | sed '$d')" = "$4" ] || fail "$1: other lines of its run: $put"
  printf '%s\n' "$put" | tail -n 1 | grep -Eq "^ticks $5 steps [1-9][0-9]* calls $6\$" || fail "$1: other totals of its run: $put"
  ends 0 "$put" exec "$2" "$3"
}

# A system of the model must answer so to a script that has no bad line, with the C written to $2: $1 is the model, $3 the word for the
# system, $4 the script, $5 the lines, $6 the ticks and $7 the calls.
answers() {
  local put
  put=$("$program" drive "$1" "$2" "$3" "$4") || fail "$1 isn't driven: $put"
  [ "$(printf '%s\n' "$put" | sed '$d')" = "$5" ] || fail "$1: other lines of the system $3: $put"
  printf '%s\n' "$put" | tail -n 1 | grep -Eq "^ticks $6 steps (0|[1-9][0-9]*) calls $7\$" || fail "$1: other totals of the system $3: $put"
}

# A driver of the C file $1 that goes through the trace $2 and puts $3 outputs in each tick.
driver_of() {
  printf '#include "%s"\n#include <inttypes.h>\n#include <stdio.h>\n\nstatic struct root r;\n\nint main(void) {\n    root_start(&r);\n' "$1"
  awk -v outputs="$3" '{
    printf "    root_step(&r"
    for (k = 1; k <= NF; k++) printf ", %s", $k
    printf ");\n    printf(\""
    for (k = 1; k <= outputs; k++) printf "%s%%\" PRId64 \"", (k > 1 ? " " : "")
    printf "\\n\""
    for (k = 1; k <= outputs; k++) printf ", (int64_t)r.y%d", k
    print ");"
  }' "$2"
  printf '    return 0;\n}\n'
}

# The C file $1 must give the lines $3 over the trace $2, compiled by the command that follows.
drives() {
  local code=$1 trace=$2 lines=$3 put
  shift 3
  driver_of "$code" "$trace" "$(printf '%s\n' "$lines" | awk 'NR == 1 { print NF }')" >driver.c
  put=$("$@" -o driver driver.c 2>&1) || fail "$code by $*: $put"
  [ -z "$put" ] || fail "$code by $*: $put"
  put=$(./driver 2>&1) || fail "$code by $*: $put"
  [ "$put" = "$lines" ] || fail "$code by $*: other outputs: $put"
}
