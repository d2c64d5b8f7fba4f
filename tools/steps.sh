# Sourced by .ci/run: steps that are counted and timed, and a table of them. The folder is the repository's.
#
# A step is a command. It leaves a line in $steps/table: its name, how many passed and failed, when it began and ended, and the CPU seconds
# of what it ran. What it prints goes to standard output and to a file of its own, so steps may run side by side.
TIMEFORMAT='%U %S'
steps=$(mktemp -d)
: >"$steps/table"

# ran JUDGE NAME COMMAND..: runs one step. JUDGE reads the log, is given the status, and prints how many passed and failed. A step
# that failed without counting a failure counts as one.
ran() {
  local judge=$1 name=$2 log status passed failed took began=$SECONDS
  shift 2
  log=$(mktemp "$steps/log.XXXXXX")
  { time "$@" 2>&1; } 2>"$log.took" | tee "$log"
  status=${PIPESTATUS[0]}
  read -r passed failed < <("$judge" "$status" <"$log")
  if [ "$status" -ne 0 ] && [ "$failed" -eq 0 ]; then failed=1; fi
  took=$(awk '{ printf "%.0f", $1 + $2 }' "$log.took")
  printf '%s\t%s\t%s\t%s\t%s\t%s\n' "$name" "$passed" "$failed" "$began" "$SECONDS" "$took" >>"$steps/table"
  rm -f "$log" "$log.took"
  echo "== $name: $passed passed, $failed failed ($((SECONDS - began)) s, at $SECONDS s)"
  [ "$failed" -eq 0 ]
}

# One command that passes or fails.
by_status() { if [ "$1" -eq 0 ]; then echo 1 0; else echo 0 1; fi; }

# A command whose last line is 'N passed, M failed'.
by_last_line() { awk '{ last = $0 } END { if (last ~ /^[0-9]+ passed, [0-9]+ failed$/) { split(last, n, " "); print n[1], n[3] } else print 0, 1 }'; }

# `rt ci`, which ends so too. An edit that cannot be applied or read fails nothing there, and is counted on its line 'rt: ok': here it failed.
by_ci() {
  awk '
    /^rt: ok/ && match($0, /must-fail edits:[^;]*, [0-9]+ bad/) { words = split(substr($0, RSTART, RLENGTH), word, " "); bad = word[words - 1] }
    { last = $0 }
    END { if (last ~ /^[0-9]+ passed, [0-9]+ failed$/) { split(last, n, " "); print n[1], n[3] + bad } else print 0, 1 }'
}

# The tests of a workspace, which cargo counts for each of its test programs. A test that the machine does not allow says so, and is no
# test that passed. No test at all is a failure.
by_cargo() {
  awk '
    /^test result: / { for (i = 2; i <= NF; i++) { if ($i == "passed;") good += $(i - 1); if ($i == "failed;") bad += $(i - 1) } }
    /not run, since/ { good-- }
    END { if (good <= 0 && bad == 0) { good = 0; bad = 1 }; print good + 0, bad + 0 }'
}

step() { ran by_status "$@"; }
counted() { ran by_last_line "$@"; }
cargo_tests() { ran by_cargo "$1" env -C "$2" cargo test --release --offline -- --nocapture; }

# failures: how many steps have failed.
failures() { awk -F '\t' '$3 > 0 { n++ } END { print n + 0 }' "$steps/table"; }

# finished: the table, then the sum, which is the last line.
finished() {
  echo
  awk -F '\t' -v all="$SECONDS" '
    function line(name, passed, failed, seconds, cpu, at) { printf "%-40s %8s %8s %8s %8s   %s\n", name, passed, failed, seconds, cpu, at }
    BEGIN { line("step", "passed", "failed", "seconds", "CPU s", "from .. to") }
    { line($1, $2, $3, $5 - $4, $6, $4 " .. " $5); passed += $2; failed += $3; cpu += $6 }
    END { line("all", passed, failed, all, cpu, "") }' <(sort -t "$(printf '\t')" -s -n -k 4 "$steps/table")
  awk -F '\t' '{ passed += $2; failed += $3 } END { printf "%d passed, %d failed\n", passed, failed; exit !(failed == 0 && passed > 0) }' "$steps/table"
}
