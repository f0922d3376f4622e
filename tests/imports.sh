#!/usr/bin/env bash
# What crate plates cites: the kit's libraries, the definitions of the crates below (their specs/) and the page of laws for users of the
# library, promises/proofs/Promises, whose every law is stated in some specs/; no law from inside a crate. The pattern is tried on what it
# must find. The last line is "N passed, M failed".
set -u
cd "$(dirname "$0")/.." || exit 1
passed=0
failed=0
work=$(mktemp -d) || exit 1
trap 'rm -rf "$work"' EXIT

# check NAME COMMAND..: counts whether the command succeeds
check() {
    local name=$1
    shift
    if "$@"; then passed=$((passed + 1)); else
        echo "imports: $name"
        failed=$((failed + 1))
    fi
}

some() { [ -n "$("$@")" ]; }
none() { [ -z "$("$@")" ]; }

# modules FILE..: a line for each module that a file of definitions, proofs or code imports or names in full: file, module. A crate that is
# named alone stands for all of its modules
modules() {
    grep -oHE '(Rattle\.[a-z_0-9]+|Prim|mathlib|native|lib|borrow|denote|types|mir)\.[^ ,;{}()]*' "$@" | sed -E 's/\.$//; s/:/ /'
    grep -oHE 'Rattle\.[a-z_0-9]*([ ,;{}()]|$)' "$@" | sed -E 's/[ ,;{}()]$//; s/:/ /'
}

# foreign CRATE FILE..: those that a crate above the library may not cite. Its own modules are Rattle.CRATE.specs and Rattle.CRATE.proofs; std is the
# kit's
foreign() {
    local own=$1
    shift
    modules "$@" | awk -v own="$own" '
        { m = $2 }
        m !~ /^Rattle\./ { next }
        m ~ "^Rattle\\." own "\\.(specs|proofs)\\." { next }
        m ~ /^Rattle\.std\.(specs|proofs)\./ { next }
        m ~ /^Rattle\.[a-z_0-9]+\.specs\./ { next }
        m == "Rattle.promises.proofs.Promises" { next }
        { print }'
}

# laws PAGE: the names that a page makes public and that are not stated by one name of specs/
laws() { awk '/(^|[ \t])pub / && !/^pub [a-z_]+ : [A-Z][A-Za-z]*$/ { print FILENAME ": " $0 }' "$1"; }

# unstated PAGE: the names of statements on a page that it does not import from a specs/
unstated() {
    local page=$1 name
    sed -nE 's/^pub [a-z_]+ : ([A-Z][A-Za-z]*)$/\1/p' "$page" | while IFS= read -r name; do
        grep -qE "^use Rattle\.[a-z_0-9]+\.specs\.[A-Za-z.]+\.\{([^}]*, )?$name(, [^}]*)?\}$" "$page" || echo "$page: $name"
    done
}

# the patterns themselves
for line in 'use Rattle.words.proofs.Laws.{length_words}' 'use Rattle.grammar.proofs.Forest as trees' 'use Rattle.promises.proofs.Components.{components_are}' \
    'use Rattle.promises.proofs.Words.{words_part}' 'ghost use Rattle.edits.proofs.Marks.{mark_marks};' 'x = Rattle.places.proofs.Places.spot_inside s' \
    '#[tactic(auto, using(Rattle.words.proofs.Laws.length_words))]' 'use Rattle.words.proofs.{Laws}' 'use Rattle.standard.proofs.Laws.{law}' \
    'use Rattle.promises.proofs.Promises.More.{law}' 'use Rattle.words as w' 'use Rattle.{words, kinds}'; do
    echo "$line" > "$work/file"
    check "not found: $line" some foreign plates "$work/file"
done
for line in 'use Rattle.words.specs.Words.{words}' 'use Rattle.plates.proofs.Hops.{hop_more}' 'use Rattle.plates.specs.declared.Plate.{Plate}' \
    'use Rattle.promises.proofs.Promises.{extent_two}' 'use lib.ListN.{length}' 'ghost use Rattle.plates.specs.Plates.{plate_of};' \
    'ghost use Rattle.std.specs.Prelude.{◌≡◌};' 'use Rattle.std.proofs.lemmas.Grind.{common_steps}'; do
    echo "$line" > "$work/file"
    check "found: $line" none foreign plates "$work/file"
done
for line in 'pub extent_two : (ws : List ℕ) (at : ℕ) → 2 ≤ extent_words ws at' '  pub extent_two : ExtentTwo' 'abbrev pub ExtentTwo : Type 0'; do
    echo "$line" > "$work/file"
    check "a law that is stated on the page is not found: $line" some laws "$work/file"
done
printf '%s\n' 'use Rattle.promises.proofs.Words.{WordsPart}' 'pub words_part : WordsPart' > "$work/file"
check "a statement from a proof is not found" some unstated "$work/file"
printf '%s\n' 'use Rattle.promises.specs.Words.{WordsLength, WordsPart}' 'pub words_part : WordsPart' > "$work/file"
check "a statement of specs/ is taken for none" none unstated "$work/file"

# the crate and the page
files=$(find crates/plates -name out -prune -o -name '*.antt' -print -o -name '*.rt' -path '*/src/*' -print | sort)
check "crate plates has few files" test "$(wc -w <<< "$files")" -gt 15
for file in $files; do
    check "$(foreign plates "$file")" none foreign plates "$file"
done
check "crate plates cites nothing of the page" some grep -l 'Rattle\.promises\.proofs\.Promises' $files
page=crates/promises/proofs/Promises.antt
check "the page has few laws" test "$(grep -cE '^pub ' $page)" -gt 8
check "$(laws $page)" none laws $page
check "$(unstated $page)" none unstated $page

echo "$passed passed, $failed failed"
[ "$failed" -eq 0 ]
