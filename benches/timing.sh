# What the scripts have in common: it is read by these, and is no script of its own.

# filled FILE: comments behind a source, up to 262,144 bytes
filled() {
  local rest=$((262144 - $(wc -c < "$1")))
  { cat "$1"; yes '!234567' | head -c "$rest"; } > "$1.f"
}

# best COMMAND..: the least time of five runs, in microseconds
best() {
  local least=0 start took
  for _ in 1 2 3 4 5; do
    start=${EPOCHREALTIME/[.,]/}
    "$@" > "$folder/out" || { cat "$folder/out" >&2; exit 1; }
    took=$((${EPOCHREALTIME/[.,]/} - start))
    if [ "$least" -eq 0 ] || [ "$took" -lt "$least" ]; then least=$took; fi
  done
  echo "$least"
}

# row COMMAND KIND PART ALL: the times of a command of cdcc on the source KIND of both sizes, in milliseconds, and their ratio
row() {
  "$2" "$3" > "$folder/part"
  "$2" "$4" > "$folder/all"
  filled "$folder/part"
  filled "$folder/all"
  part=$(best "$program" "$1" "$folder/part.f")
  all=$(best "$program" "$1" "$folder/all.f")
  awk -v kind="$2" -v part="$part" -v all="$all" -v n="$3" -v m="$4" 'BEGIN {
    printf "%-10s  %6d %9.1f ms  %6d %9.1f ms  ratio %6.2f\n", kind, n, part / 1000, m, all / 1000, all / part }'
}
