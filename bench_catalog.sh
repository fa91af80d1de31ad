#!/usr/bin/env bash
# Measures how catalog texts are loaded and printed: catalogs of many relations, many schemas with the same names in each, and
# single statements as long as they can be. It makes the texts itself. `ratio` is the time over that of the row above it.
set -u
top=$(cd "$(dirname "$0")" && pwd)
load=$top/crates/load_text/out/load_text
[ -x "$load" ] || (cd "$top/crates/load_text" && rt run < stdin > /dev/null) || exit 1
folder=$(mktemp -d "${TMPDIR:-/tmp}/upgrade_bench.XXXXXX") || exit 1
trap 'rm -rf "$folder"' EXIT
before=

# So many tables of two columns, each with a toast table and two indexes.
tables() {
  awk -v most="$1" 'BEGIN {
    print "BOOTSTRAP postgres;\nCONNECT postgres;"
    for (n = 0; n < most; n++) {
      o = 20000 + 8 * n
      printf "SET NEXT type %d; SET NEXT table %d; SET NEXT table_file %d; SET NEXT toast %d; SET NEXT toast_file %d; SET NEXT toast_index %d; SET NEXT toast_index_file %d;\n", o, o + 1, o + 1, o + 2, o + 2, o + 3, o + 3
      printf "CREATE TABLE public.table_%d OWNER postgres TABLESPACE pg_default (id int8, note text);\n", n
      for (k = 4; k < 6; k++)
        printf "SET NEXT index %d; SET NEXT index_file %d; CREATE INDEX table_%d_key%d ON public.table_%d TABLESPACE pg_default (1, 2);\n", o + k, o + k, n, k, n
    }
  }'
}

# So many tables without columns and without toast tables.
bare_tables() {
  awk -v most="$1" 'BEGIN {
    print "BOOTSTRAP postgres;\nCONNECT postgres;"
    for (n = 0; n < most; n++) {
      o = 20000 + 2 * n
      printf "SET NEXT type %d; SET NEXT table %d; SET NEXT table_file %d; CREATE TABLE public.t%d OWNER postgres TABLESPACE pg_default ();\n", o, o + 1, o + 1, n
    }
  }'
}

# So many schemas, each with a table and an index of the same two names.
schemas() {
  awk -v most="$1" 'BEGIN {
    print "BOOTSTRAP postgres;\nCONNECT postgres;"
    for (n = 0; n < most; n++) {
      o = 20000 + 3 * n
      printf "CREATE SCHEMA tenant_%d OWNER postgres;\n", n
      printf "SET NEXT type %d; SET NEXT table %d; SET NEXT table_file %d; CREATE TABLE tenant_%d.orders OWNER postgres TABLESPACE pg_default (id int8);\n", o, o + 1, o + 1, n
      printf "SET NEXT index %d; SET NEXT index_file %d; CREATE INDEX orders_key ON tenant_%d.orders TABLESPACE pg_default (1);\n", o + 2, o + 2, n
    }
  }'
}

# So many roles, databases, tablespaces, and labels of one enum.
roles() {
  awk -v most="$1" 'BEGIN { print "BOOTSTRAP p;"; for (n = 0; n < most; n++) printf "SET NEXT role %d;CREATE ROLE r%d;\n", 20000 + n, n }'
}
databases() {
  awk -v most="$1" 'BEGIN { print "BOOTSTRAP p;"; for (n = 0; n < most; n++) printf "SET NEXT database %d;CREATE DATABASE d%d OWNER p;\n", 20000 + n, n }'
}
tablespaces() {
  awk -v most="$1" 'BEGIN { print "BOOTSTRAP p;"; for (n = 0; n < most; n++) printf "SET NEXT tablespace %d;CREATE TABLESPACE t%d OWNER p LOCATION \047/%d\047;\n", 20000 + n, n, n }'
}
labels() {
  awk -v most="$1" 'BEGIN { print "BOOTSTRAP p;CONNECT postgres;SET NEXT type 19999;CREATE ENUM public.e OWNER p;"; for (n = 0; n < most; n++) printf "SET NEXT label %d;ADD LABEL public.e \047%d\047;\n", 20000 + n, n }'
}

# So many tables of 1,600 columns.
wide_tables() {
  awk -v most="$1" 'BEGIN {
    print "BOOTSTRAP p;CONNECT postgres;"
    for (n = 0; n < most; n++) {
      printf "SET NEXT type %d;SET NEXT table %d;SET NEXT table_file %d;CREATE TABLE public.t%d OWNER p TABLESPACE pg_default (", 20000 + n, 20000 + n, 20000 + n, n
      for (k = 1; k < 1600; k++) printf "c%d oid,", k
      print "z oid);"
    }
  }'
}

start='BOOTSTRAP postgres;CONNECT postgres;SET NEXT type 16384;SET NEXT table 16385;SET NEXT table_file 16385;SET NEXT index 16386;SET NEXT index_file 16386;SET NEXT tablespace 16387;'

# So many bytes of a word over and over.
repeated() { yes "$2" | tr -d '\n' | head -c "$1"; }

# Statements of so many bytes.
columns() {
  printf '%sCREATE TABLE public.t OWNER postgres TABLESPACE pg_default (' "$start"
  awk -v most="$1" 'BEGIN { for (n = 0; bytes < most; n++) { column = "c" n " oid,"; printf "%s", column; bytes += length(column) } }'
  printf 'last oid);'
}
short_columns() {
  printf '%sCREATE TABLE public.t OWNER postgres TABLESPACE pg_default (' "$start"
  repeated "$(($1 / 6 * 6))" 'a oid,'
  printf 'last oid);'
}
keys() {
  printf '%sCREATE TABLE public.t OWNER postgres TABLESPACE pg_default (id int4);CREATE INDEX i ON public.t TABLESPACE pg_default (' "$start"
  repeated "$1" '1,'
  printf '1);'
}
location() {
  printf "%sCREATE TABLESPACE t OWNER postgres LOCATION '" "$start"
  repeated "$1" '/name'
  printf "';"
}
short_names() {
  printf "%sCREATE TABLESPACE t OWNER postgres LOCATION '" "$start"
  repeated "$1" '/a'
  printf "';"
}
parentheses() {
  printf '%sCREATE TABLE public.t OWNER postgres TABLESPACE pg_default ' "$start"
  repeated "$1" '('
}

# A row: a name, the relations (0 where that doesn't matter), and what makes the text.
row() {
  local begin end took end_of
  "${@:3}" > "$folder/text"
  begin=$(date +%s%N)
  end_of=$(/usr/bin/time -o "$folder/peak" -f %M "$load" --quiet < "$folder/text")
  end=$(date +%s%N)
  took=$(((end - begin) / 1000000))
  awk -v name="$1" -v relations="$2" -v bytes="$(wc -c < "$folder/text")" -v took="$took" -v peak="$(tail -n 1 "$folder/peak")" -v before="$before" -v ends="${end_of:-loaded}" 'BEGIN {
    printf "%s: %d bytes, %s, %d ms", name, bytes, ends, took
    if (before != "") printf ", ratio %.1f", took / (before > 0 ? before : 1)
    printf ", peak %d KiB, %.1f times the text", peak, peak * 1024 / bytes
    if (relations > 0) printf ", %.2f KiB a relation", peak / relations
    print ""
  }'
  before=$took
}

# Rows that grow.
rows() {
  before=
  local count
  for count in "${@:4}"; do
    row "$count $1" "$((count * $2))" "$3" "$count"
  done
}

[ -x /usr/bin/time ] || { echo "/usr/bin/time is not installed"; exit 1; }
rows 'tables with toast tables and two indexes' 5 tables 5000 20000 33000
rows 'tables without columns' 1 bare_tables 5000 20000
rows 'schemas with the same two names' 2 schemas 1000 4000
rows roles 0 roles 5000 20000
rows databases 0 databases 5000 20000
rows tablespaces 0 tablespaces 5000 20000
rows 'labels of an enum' 0 labels 5000 20000
rows 'tables of 1,600 columns' 0 wide_tables 250 1000
rows 'bytes of columns' 0 columns $((16 << 20)) $((64 << 20))
rows 'bytes of the shortest columns' 0 short_columns $((16 << 20)) $((64 << 20))
rows 'bytes of keys' 0 keys $((16 << 20)) $((64 << 20))
rows 'bytes of a location' 0 location $((16 << 20)) $((64 << 20))
rows 'bytes of a location with the shortest names' 0 short_names $((16 << 20)) $((64 << 20))
rows 'bytes of open parentheses' 0 parentheses $((16 << 20)) $((64 << 20))
