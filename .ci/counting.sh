# Counts what the gate runs: sourced by .ci/run, which is a list of steps, and by most of the steps. A step is a command whose last
# line is 'N passed, M failed'.
passed=0
failed=0
begun=()
logs=build/ci

# judge WHAT COMMAND..: counts a command by its status.
judge() {
  local what=$1
  shift
  if "$@"; then
    passed=$((passed + 1))
    echo "ok      $what"
  else
    failed=$((failed + 1))
    echo "FAILED  $what"
  fi
}

# skipped WHAT PACKAGE: says what isn't judged here, and which package of Debian it needs.
skipped() {
  echo "skipped $1: it needs Debian's package $2"
}

# counted: prints the last line; its status is 0 only if nothing failed.
counted() {
  printf '%d passed, %d failed\n' "$passed" "$failed"
  [ "$failed" -eq 0 ]
}

# one COMMAND..: a step of one command, which counts by its status.
one() (
  passed=0
  failed=0
  judge "$*" "$@"
  counted
)

# checked SCRIPT: a step of a Python script of .ci and its self-test.
checked() (
  passed=0
  failed=0
  judge "$1" python3 ".ci/$1"
  judge "$1 --self-test" python3 ".ci/$1" --self-test
  counted
)

# begin NAME SHOWS COMMAND..: starts a step next to those begun before it.
begin() {
  local name=$1
  echo "$2" >"$logs/$name.shows"
  begun+=("$name")
  shift 2
  timed "$name" "$@" &
}

# timed NAME COMMAND..: leaves in $logs what a command prints, its status and its seconds.
timed() {
  local name=$1 start=$SECONDS
  shift
  "$@" >"$logs/$name.log" 2>&1 </dev/null
  echo $? $((SECONDS - start)) >"$logs/$name.end"
}

# finish: waits for the steps that were begun, and reports them in their order.
finish() {
  local name
  wait
  for name in "${begun[@]}"; do report "$name"; done
  begun=()
}

# step NAME SHOWS COMMAND..: runs a step by itself.
step() {
  begin "$@"
  finish
}

# report NAME: counts a step by its last line. A bad status fails it whatever it counted, and so does a last line that counts
# nothing. What a failed step printed is shown, and what another one skipped.
report() {
  local status seconds last passes=0 fails=1
  read -r status seconds <"$logs/$1.end"
  last=$(tail -n 1 "$logs/$1.log")
  if [[ $last =~ ^([0-9]+)\ passed,\ ([0-9]+)\ failed$ ]]; then
    passes=${BASH_REMATCH[1]}
    fails=${BASH_REMATCH[2]}
    if [ "$fails" -eq 0 ] && { [ "$status" -ne 0 ] || [ "$passes" -eq 0 ]; }; then fails=1; fi
  fi
  passed=$((passed + passes))
  failed=$((failed + fails))
  if [ "$fails" -eq 0 ]; then
    printf 'ok      %s: %s: %s (%s s)\n' "$1" "$(<"$logs/$1.shows")" "$last" "$seconds"
    sed -n 's/^skipped /        skipped /p' "$logs/$1.log"
  else
    printf 'FAILED  %s: %s: status %s (%s s)\n' "$1" "$(<"$logs/$1.shows")" "$status" "$seconds"
    cat "$logs/$1.log"
  fi
}
