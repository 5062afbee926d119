# run_part PART ROWS INPUT WORKERS: prints the text of a part, and a last line: end PART STATUS INPUT TEXT
part=$1 rows=$2 input=$3 workers=$4
held=$(cat program @FILES@ "net/part-$part.csv" | sha256sum) || exit 66
if [ "${held%% *}" != "$input" ]; then
  echo "$(uname -n): the program or the files are others than those of this batch" >&2
  exit 66
fi
if [ "$workers" = 0 ]; then
  workers=$(nproc) || workers=4
  [ "$workers" -le @MOST@ ] || workers=@MOST@
fi
text=$(mktemp) || exit 73
trap 'rm -f "$text"' EXIT
trap 'exit 143' HUP INT TERM
./program batch net "part-$part.csv" --workers "$workers" >"$text"
status=$?
# Not whole: another number of jobs, or a last line without an end.
if [ "$status" = 0 ] && { [ "$(grep -c '^job ' "$text")" != "$rows" ] || [ -n "$(tail -c 1 "$text")" ]; }; then
  status=65
fi
[ "$status" = 0 ] || echo "$(uname -n): the program ended with status $status: $(head -n 1 "$text")" >&2
sum=$(sha256sum <"$text") && cat "$text" && echo "end $part $status $input ${sum%% *}" || exit 74
exit "$status"
