# What the black-box checks share. A check says nothing where it passes.
set -u
folder=$(mktemp -d) || exit 2
trap 'rm -rf "$folder"' EXIT
passed=0
failed=0
usage="usage: bench continuity|learn|run|serve|report|unit|import|export|soak [options]"

# files HARNESS WIRELIST: writes both, a slash standing for a line's end
files() {
  printf '%s' "$1" | tr '/' '\n' >"$folder/harness.sim"
  printf '%s' "$2" | tr '/' '\n' >"$folder/wirelist.csv"
}

# judge NAME CONDITION..: counts a check, which passes where the command does
judge() {
  local name=$1
  shift
  if "$@"; then
    passed=$((passed + 1))
  else
    failed=$((failed + 1))
    echo "black-box: $name"
  fi
}

# ran STATUS: what was printed is what was expected, with this status, and nothing went to standard error
ran() {
  [ "$ended" -eq "$1" ] && cmp -s "$folder/expected" "$folder/printed" && [ ! -s "$folder/errors" ] && return 0
  echo "black-box: status $ended, wanted $1; printed:"
  cat "$folder/printed" "$folder/errors"
  return 1
}

# expect NAME STATUS TEXT WORD..: runs the program in the folder, with no input
expect() {
  local name=$1 status=$2
  printf '%s' "$3" | tr '/' '\n' >"$folder/expected"
  shift 3
  (cd "$folder" && "$here/bench" "$@" >"$folder/printed" 2>"$folder/errors" </dev/null)
  ended=$?
  judge "$name" ran "$status"
}

H1=points\ 5/unit\ SN1\ 1/wire\ 0\ 1/wire\ 2\ 3/end/
W1=part,P1,1/points,5/net,A,0,1/net,B,2,3/

# with ROWS: the harness H1 whose unit has these rows beside its wires
with() { printf '%s' "${H1%end/}$1/end/"; }
