#!/usr/bin/env bash
# Counts the places of docs/DESIGN-PASS.md in the sources of a commit: tools/places.sh [COMMIT]
set -euo pipefail
commit=${1:-HEAD}
cd "$(dirname "$0")/.."
# A line each: the point, the pattern, and how many lines of the sources have it.
in_sources() { printf '%s\t%s\t%s\n' "$1" "$(git grep -hE -e "$2" "$commit" -- 'crates/*/src/*.rt' | wc -l)" "$2"; }
in_sources 1a 'is_accepted\(\)'
in_sources 1b '^ +(pub )?decline: Decline,'
in_sources 1c '-> Decline\b'
in_sources 1d '^    (pub )?[a-z_]+: bool,$'
in_sources 1e '^ *pub (const|enum) .*(NUMBER|_RESET|_ERASE|_PROGRAM|NO_OPERATION|PLAIN|CLEAR|SET|INVERT|NVM[A-Z0-9]+): u32'
in_sources 1f '^(pub )?enum '
in_sources 3 '^ *while '
in_sources 4a 'fn (new|number|same|same_words|find|fill|copy|flag|wide|widened|smaller|room|saturating_add)\('
in_sources 5a 'requires .*InRange'
in_sources 5b 'requires .*length one\.(now|old) ≡'
in_sources 5c 'requires .*(Used out|Room (one|two)|scratch[12]|sign\.sequence)'
in_sources 6a '\[u32; 26\]'
in_sources 6b '(used|held|at|middle|from|end): usize,?'
printf '8a\t%s\tanswers and invariants of functions, files\n' "$(git ls-tree -r --name-only "$commit" -- crates | grep -cE '/proofs/.*/(Answers|Invariants)\.antt$')"
printf '8b\t%s\tthe same, lines\n' "$(git ls-tree -r --name-only "$commit" -- crates | grep -E '/proofs/.*/(Answers|Invariants)\.antt$' | sed "s/^/$commit:/" | xargs git show | wc -l)"
