#!/usr/bin/env bash
# places.sh COMMIT [LABEL]: counts, in the source of that commit, the places that docs/DESIGN-PASS.md speaks of, and with a
# label lists those of that one kind.
set -euo pipefail
commit=$1
label=${2:-}
top=$(git rev-parse --show-toplevel)
folder=$(mktemp -d)
trap 'rm -rf "$folder"' EXIT
git -C "$top" archive "$commit" crates | tar -x -C "$folder"
cd "$folder/crates"

# places LABEL PATTERN: the lines of all sources that match
places() {
  local found
  found=$(grep -rnE --include=*.rt "$2" . | grep '/src/' | grep -vE ':[0-9]+: *//' | sed 's|^\./||' | sort || true)
  show "$1" "$found"
}

show() {
  local count
  count=$(printf '%s' "$2" | grep -c . || true)
  if [ -z "$label" ]; then
    printf '%-18s %s\n' "$1" "$count"
  elif [ "$label" = "$1" ]; then
    printf '%s\n' "$2"
  fi
}

places 1-enums '^ *(pub(\(crate\))? )?enum [A-Z]'
places 1-flags '[a-z_]+: bool\b'
places 1-faults 'Option<[A-Za-z]*(Cause|Fault|Refusal)>'
places 1-numbers 'number: u8|push_refusal\(.*[0-9]+\)|fn number\('
places 1-sentinels '== [a-z_]+\.len\(\)'
show 2-twins "$(python3 "$top/tools/twins.py" "$folder/crates")"
places 3-whiles '^ *(while|loop)\b'
places 3-ranges 'for [a-z_]+ in .*\.\.'
places 4-equality '\.(client|clock) == |fn (is|same|is_word|is_single|eq|cmp)\('
places 4-casts ' as [ui](8|16|32|64|128|size)\b'
places 4-printing 'fn push_|fn fmt\b'
places 5-text 'heap: Global'
places 5-words 'used: u32'
places 5-bytes 'bytes: &(.a )?\[u8\],( at|$)|^ *bytes: '
places 5-lists 'fronts: &'
places 6-arrays '[:=] \[[A-Za-z0-9_<>]+; [A-Z0-9_]+\]'
places 7-words 'is_word\('
show 8-answers "$(find . -path '*/proofs/*' -name '*.antt' | xargs grep -c '' | sed 's|^\./||' | sort)"
