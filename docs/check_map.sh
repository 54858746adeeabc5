#!/usr/bin/env bash
# Compares MAP's table of lemma modules that crates above cite with what the crates import. Prints each difference; the
# status is 1 where there is one.
set -u
cd "$(dirname "$0")/.." || exit 1
export LC_ALL=C

# The repository's crates, a name on each line.
crates() {
    sed -n 's/^\([a-z0-9_]*\)[ :].*/\1/p' crates.txt
}

# Lines 'crate module' of the table in docs/MAP.md.
written() {
    sed -n '/^| crate | modules that crates above cite |$/,/^$/p' docs/MAP.md | tr -d '`,|' | tail -n +3 |
        awk '{ for (i = 2; i <= NF; i++) print $1, $i }' | sort -u
}

# The same of what files of one crate import from the proofs of another one of this repository.
imported() {
    grep -rEo 'Rattle\.[a-z0-9_]+\.proofs\.[A-Z][A-Za-z0-9_]*' crates --exclude-dir=out --include='*.rt' --include='*.antt' |
        sed -n 's|^crates/\([^/]*\)/[a-z]*/[^:]*:Rattle\.\([^.]*\)\.proofs\.\(.*\)$|\1 \2 \3|p' |
        awk 'NR == FNR { ours[$1]; next } $2 in ours && $1 != $2 { print $2, $3 }' <(crates) - | sort -u
}

differences=$(diff <(written) <(imported))
if [ -n "$differences" ]; then
    echo "docs/MAP.md (<) and the crates' imports (>) name other lemma modules:"
    grep '^[<>]' <<<"$differences"
    exit 1
fi
echo "docs/MAP.md names the $(imported | grep -c '') lemma modules that crates above cite"
