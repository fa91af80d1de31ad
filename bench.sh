#!/usr/bin/env bash
# Measures the proved program on a real disk, against cp over the same files, on two pairs of clusters: one of so many small
# relations, and one whose table has a full segment of 1 GiB and a second of 16 MiB. Each ratio is of times of one run of this
# script, the best of three each, with files that were just read.
# bench.sh [FOLDER [RELATIONS]]: a folder that doesn't stand yet, on the disk that is measured; it is removed at the end.
# ./sample.sh --proved builds the program that is measured; make_pair, which makes the pairs, is built here once.
# bench.sh catalog: measures instead how catalog texts that it makes itself are loaded and printed, by the proved program
# load_text, which it builds once.
set -u
top=$(cd "$(dirname "$0")" && pwd)
[ "${1:-}" = catalog ] && exec "$top/bench_catalog.sh"
folder=${1:-$(mktemp -u -d "${TMPDIR:-/tmp}/upgrade_bench.XXXXXX")}
relations=${2:-1000}
upgrade=$top/crates/upgrade_cli/out/upgrade_cli
make=$top/crates/make_pair/out/make_pair
segment=$((131072 * 8192))

[ -x "$upgrade" ] || { echo "no proved program: run ./sample.sh --proved"; exit 1; }
[ -x "$make" ] || (cd "$top/crates/make_pair" && rt run > /dev/null)
[ -x "$make" ] || exit 1
mkdir "$folder" || exit 1
trap 'rm -rf "$folder"' EXIT

# A pair whose old cluster has a sequence and a file of one block for each number.
make_small() {
  "$make" "$1" 0 || exit 1
  awk -v most="$relations" 'BEGIN {
    print "CONNECT app;"
    for (n = 20000; n < 20000 + most; n++)
      printf "SET NEXT sequence %d;\nSET NEXT sequence_file %d;\nCREATE SEQUENCE public.s%d OWNER postgres;\n", n, n, n
  }' >> "$1/old/pg_profile/catalog.sql"
  head -c $((relations * 8192)) /dev/urandom \
    | (cd "$1/old/base/16384" && split -b 8192 -d -a 7 --numeric-suffixes=20000 - 00 && for it in 00*; do mv "$it" "$((10#$it))"; done)
}

# A pair whose old cluster has one table of two segments.
make_large() {
  "$make" "$1" 1 || exit 1
  head -c "$segment" /dev/urandom > "$1/old/base/16384/16401"
  head -c $((16 * 1024 * 1024)) /dev/urandom > "$1/old/base/16384/16401.1"
}

# The milliseconds that a command takes; what it prints goes to a log. A failure ends the measurement.
milliseconds() {
  local begin end
  begin=$(date +%s%N)
  "$@" >> "$folder/log" 2>&1 || { echo "failed: $*"; tail -n 5 "$folder/log"; exit 1; }
  end=$(date +%s%N)
  echo $(((end - begin) / 1000000))
}

upgrades() { "$upgrade" -d "$1/old" -D "$1/new" "${@:2}"; }
copies() { cp -a "$1/old" "$1/twin" && sync -f "$1/twin"; }
links() { cp -al "$1/old" "$1/twin" && sync -f "$1/twin"; }

# A fresh copy of a pair, on the disk, its files in memory.
fresh() {
  rm -rf "$folder/pair"
  cp -a "$1" "$folder/pair"
  sync -f "$folder/pair"
}

# The best time of three of a command over a fresh pair.
best() {
  local least= took
  for _ in 1 2 3; do
    fresh "$1"
    took=$(milliseconds "$2" "$folder/pair" "${@:3}") || { echo "$took" >&2; exit 1; }
    if [ -z "$least" ] || [ "$took" -lt "$least" ]; then least=$took; fi
  done
  echo "$least"
}

ratio() { awk -v a="$1" -v b="$2" 'BEGIN { printf "%.2f", a / (b > 0 ? b : 1) }'; }

# One row of the table: our time, that of cp, and their ratio.
row() {
  local ours theirs
  ours=$(best "$1" upgrades "${@:4}") || exit 1
  theirs=$(best "$1" "$3") || exit 1
  echo "$2: $ours ms, cp $theirs ms, ratio $(ratio "$ours" "$theirs")"
}

# The peak memory of a run over a fresh pair, in KiB.
peak() {
  fresh "$1"
  [ -x /usr/bin/time ] || { echo "not measured: /usr/bin/time is not installed"; return; }
  /usr/bin/time -f %M "$upgrade" -d "$folder/pair/old" -D "$folder/pair/new" "${@:2}" 2>&1 > /dev/null | tail -n 1
}

# The system calls of a run over a fresh pair.
calls() {
  fresh "$1"
  command -v strace > /dev/null || { echo 0; return; }
  strace -f -c -o "$folder/calls" "$upgrade" -d "$folder/pair/old" -D "$folder/pair/new" "${@:2}" > /dev/null
  awk '$NF == "total" { print $4 }' "$folder/calls"
}

measure() {
  local pair=$1 name=$2 files=$3 pieces=$4 count
  row "$pair" "$name, copy" copies || exit 1
  row "$pair" "$name, link" links --link || exit 1
  echo "$name, check alone: $(best "$pair" upgrades --check) ms"
  echo "$name, report alone: $(best "$pair" upgrades --report) ms"
  for mode in copy link; do
    echo "$name, $mode, peak memory: $(peak "$pair" "--$mode") KiB"
    count=$(calls "$pair" "--$mode")
    echo "$name, $mode, system calls: $count, $(ratio "$count" "$files") a file, $(ratio "$count" "$pieces") a piece of 64 KiB"
  done
}

echo "$(uname -srm), $(nproc) processors, $(df -T "$folder" | awk 'NR == 2 { print $2 }') on $(df "$folder" | awk 'NR == 2 { print $1 }')"
make_small "$folder/small"
measure "$folder/small" "$relations relations" "$relations" "$relations"
rm -rf "$folder/small"
make_large "$folder/large"
measure "$folder/large" "1 GiB" 2 $((16384 + 256))
