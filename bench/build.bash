# How the program is built, for `mdlc`, which has set `top`, the repository.
# shellcheck disable=SC2154
#
# `rt ci` proves crates side by side and keeps each that is done, outside the checkout, so that nothing is proved twice; and it has no
# first pass over all sources. It works on a copy of what the program stands on: without crates of tests, and without the edits that
# must be refused. The copy is no part of the checkout, where `rt ci` would refuse it.

program="$top/crates/mdlc/out/mdlc"
rt="" room="" log=""

# The lines of crates.txt for the program and all that it stands on.
lines_below() {
  awk -F: '/^[a-z]/ { line[++n] = $0; name[n] = $1; below[$1] = $2 }
    function want(crate, it, k) {
      if (crate in wanted) return
      wanted[crate]
      for (k = split(below[crate], it, " "); k; k--) want(it[k])
    }
    END {
      want("mdlc")
      for (i = 1; i <= n; i++) if (name[i] in wanted) print line[i]
    }' "$top/crates.txt"
}

is_current() {
  local names
  [ -x "$program" ] && [ ! "$top/crates.txt" -nt "$program" ] || return 1
  mapfile -t names < <(lines_below | cut -d: -f1)
  [ -z "$(cd "$top/crates" && find "${names[@]}" -name out -prune -o -name must-fail -prune -o -type f -newer "$program" -print -quit)" ]
}

copy_sources() {
  mkdir -p "$1/crates" && lines_below >"$1/crates.txt" && cp "$top/HANDLES" "$1/" || return 1
  cut -d: -f1 "$1/crates.txt" |
    tar -C "$top/crates" --anchored --no-wildcards-match-slash --exclude='*/out' --exclude='*/must-fail' -cf - -T - |
    tar -C "$1/crates" -xf -
}

# How many crates of $1 are done, at each that is done and each minute, while `rt` works. It is stopped where one isn't proved.
tell_crates() {
  local told count before=0 since=$SECONDS begun=$SECONDS
  echo "mdlc: the program is built first, and README.md says how long that takes: 0 of $1 crates proved, 0 minutes" >&2
  while kill -0 "$rt" 2>/dev/null; do
    sleep 1
    told=$(grep -E '^rt: [a-z0-9_]+ (proved|is kept:)' "$log")
    count=$(grep -c . <<<"$told")
    if [ "$count" != "$before" ] || [ $((SECONDS - since)) -ge 60 ]; then
      echo "mdlc: $count of $1 crates proved, $(((SECONDS - begun) / 60)) minutes$(tail -n 1 <<<"$told" | sed -n 's/^rt: \([^ ]*\).*/; the last was \1/p')" >&2
      before=$count since=$SECONDS
    fi
    ! grep -Eq '^rt: [a-z0-9_]+ NOT PROVED$' "$log" || kill "$rt" 2>/dev/null
  done
}

# Why the build ended with status $1: the first crate that isn't proved, with its first error, or what else ended it.
tell_cause() {
  local crate lines whole="${program%/*}/build.log" fault=': error|^error|^note: [^ ]+:[0-9]+:[0-9]+:|^fn .*: (not proved|no proof)'
  mkdir -p "${program%/*}" && sed "s|$room/|$top/|g" "$log" >"$whole"
  lines=$(awk '/^== / { lines = "" } /^rt: [a-z0-9_]+ NOT PROVED$/ { print $2 "\n" lines; exit } { lines = lines $0 "\n" }' "$whole")
  crate=${lines%%$'\n'*}
  if [ -n "$crate" ] && grep -q '^rt: the check was killed' <<<"$lines"; then
    echo "mdlc: the check of the crate $crate was killed, most likely for memory" >&2
  elif [ -n "$crate" ]; then
    echo "mdlc: the crate $crate isn't proved: $(grep -m 1 -E "$fault" <<<"$lines" || tail -n 1 <<<"$lines")" >&2
  elif [ "$1" -ge 128 ]; then
    echo "mdlc: the build was ended by signal $(($1 - 128))$([ "$1" != 137 ] || echo ', most likely for memory')" >&2
  else
    echo "mdlc: the build failed: $(grep '^rt: ' "$whole" | tail -n 1)" >&2
  fi
  echo "mdlc: the whole log is $whole" >&2
}

end_build() {
  [ -z "$rt" ] || { kill "$rt" 2>/dev/null; wait "$rt"; }
  [ -z "$room" ] || rm -rf "$room"
  rt="" room=""
}

interrupted() {
  echo "mdlc: the build is interrupted; begun again it goes on with what is left" >&2
  exit "$1"
}

build() {
  local status
  if ! command -v rt >/dev/null 2>&1; then
    echo "mdlc: the program isn't built of these sources, and for that the command rt of the Rattle kit must be on the path;" \
      "where the package that bench/package makes is installed, neither is needed" >&2
    return 1
  fi
  trap end_build EXIT
  trap 'interrupted 129' HUP
  trap 'interrupted 130' INT
  trap 'interrupted 143' TERM
  mkdir -p "${program%/*}" && exec 9>"${program%/*}/build.lock" || return 1
  flock -n 9 || { echo "mdlc: another build is at work here; waiting for it" >&2; flock 9; }
  if ! is_current; then
    # A build that was killed leaves its copy.
    find "${TMPDIR:-/var/tmp}" -maxdepth 1 -name 'mdlc-build.*' -uid "$UID" -mtime +0 -exec rm -rf {} + 2>/dev/null
    room=$(mktemp -d "${TMPDIR:-/var/tmp}/mdlc-build.XXXXXX") && copy_sources "$room" || return 1
    log=$room/build.log
    (cd "$room" && exec rt ci) >"$log" 2>&1 </dev/null 9>&- &
    rt=$!
    tell_crates "$(wc -l <"$room/crates.txt")"
    wait "$rt"
    status=$?
    rt=""
    # Where it can't keep what it proves, say.
    grep '^rt: note: .*\(kept\|disk\)' "$log" >&2
    if [ "$status" != 0 ]; then
      tell_cause "$status"
      return 1
    fi
    # It is as old as the copy, so that what was changed meanwhile is newer.
    mkdir -p "${program%/*}"
    cp "$room/crates/mdlc/out/mdlc" "$program.new" && touch -r "$room/crates.txt" "$program.new" && mv "$program.new" "$program" || return 1
  fi
  end_build
  trap - EXIT HUP INT TERM
  exec 9>&-
}
