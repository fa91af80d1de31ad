#!/usr/bin/env bash
# Makes two small pairs of clusters in a new folder, upgrades the one in copy mode and the other in link mode, asks for a
# report on the second, and shows what stands.
# sample.sh [--proved] [FOLDER]: an absolute path that doesn't stand yet. Plain, it runs the programs without proving them;
# with --proved it proves and builds them, and what it built stays in crates/upgrade_cli/out/upgrade_cli.
set -u
top=$(cd "$(dirname "$0")" && pwd)
how=try
[ "${1:-}" = --proved ] && how=run && shift
folder=${1:-$(mktemp -u -d "${TMPDIR:-/tmp}/upgrade_sample.XXXXXX")}
log=$folder/log
cases=$folder/cases
status=0

# Runs the program of a crate; what the tools say of it goes to a log.
run() {
  (cd "$top/crates/$1" && rt "$how" "${@:2}" 2>> "$log")
}

# Runs the upgrade with these words behind a name. Without proof it notes them, since one build then serves all runs.
upgrade() {
  if [ "$how" = try ]; then
    : > "$cases/$1"
    printf '%s\n' "${@:2}" > "$cases/$1.args"
  else
    echo "\$ upgrade_cli ${*:2}"
    run upgrade_cli -- "${@:2}" || status=$?
  fi
}

mkdir "$folder" "$cases" || exit 1
if [ "$how" = run ]; then
  echo "The programs are proved and built first, over all that they stand on."
else
  echo "The programs are run without proof; --proved proves them first."
fi
run make_sample -- "$folder/copy" || { cat "$log"; exit 1; }
cp -a "$folder/copy" "$folder/link"
upgrade 1_copy -d "$folder/copy/old" -D "$folder/copy/new"
upgrade 2_link --link -d "$folder/link/old" -D "$folder/link/new"
upgrade 3_report --report -d "$folder/link/old" -D "$folder/link/new"
if [ "$how" = try ]; then
  run upgrade_cli --cases "$cases" || status=$?
  [ "$(grep -c '^case=.* status=0 ' "$log")" = 3 ] || status=1
fi
[ "$status" = 0 ] || cat "$log"
for pair in copy link; do
  echo "\$ the table's file in $folder/$pair, old and new: inode, checksum, bytes"
  for side in old new; do
    table=$folder/$pair/$side/base/16384/16385
    [ -f "$table" ] && echo "$side $(stat -c %i "$table") $(cksum < "$table")"
  done
done
[ "$how" = run ] && echo "The proved program: $top/crates/upgrade_cli/out/upgrade_cli"
exit "$status"
