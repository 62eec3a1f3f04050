#!/usr/bin/env bash
# Lists, for each point of docs/DESIGN-PASS.md, the lines of src/ that may be places of it, at a commit.
# Usage: tools/places.sh [-l] [COMMIT]     with -l the lines, else only how many there are
set -u
lines=no
if [ "${1:-}" = "-l" ]; then lines=yes; shift; fi
at="${1:-HEAD}"

say() {
  local point="$1" found
  shift
  found=$(git grep -nE "$@" "$at" -- 'crates/*/src/*.rt' | sed "s/^[^:]*://")
  if [ -z "$found" ]; then echo "$point: 0"; else echo "$point: $(echo "$found" | wc -l)"; fi
  if [ "$lines" = yes ] && [ -n "$found" ]; then echo "${found//$'\n'/$'\n'  }" | sed '1s/^/  /'; fi
}

# facts that stand in the contracts of three or more functions
repeated() {
  git grep -hE '^ *(requires|ensures)( [a-z_]+)? \{' "$at" -- 'crates/*/src/*.rt' \
    | sed -E 's/^ *(requires|ensures)( [a-z_]+)? //' | sort | uniq -c | awk '$1 >= 3' | sort -rn
}

say "1a enums" '^ *(pub(\(crate\))? )?enum '
say "1b a case passed on, or a default in place of none" \
  'Err\((why|_)\) => (Err|return)|Ok\(\(\)\) => Ok\(|None => ("|0|\()|return "";|^ +""$|Result<Result'
say "2 functions" '^ *(pub(\([a-z]+\))? )?fn '
say "3 loops" '^ *(('"'"'[a-z]+: )?(for|while) [^/]*|loop )\{$'
say "4 equality, order, copying, conversion and printing" \
  'fn (numbered|number|place|fmt|eq|cmp|partial_cmp|clone|from|try_from)\b|from_slice\(heap|try_from\(|\.(rows|choices|node_names)\.clone'
if [ "$lines" = yes ]; then
  echo "5 facts in three or more contracts:"
  repeated
else
  echo "5 facts in three or more contracts: $(repeated | wc -l), in $(repeated | awk '{n += $1} END {print n + 0}') clauses"
fi
say "6 buffers, vectors and counts beside them" \
  ': \[[A-Za-z0-9]+; [0-9A-Z]+\]|[a-z]+_count: usize|^ *(pub )?(count|width|choices): usize|: (Option<)?Vec<'
say "7 switches on what to run, pointers, boxes" '\bfn\(|dyn |Box<|match (self\.)?(act|call|command|stated|place)\b|match self \{'
