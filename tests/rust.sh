#!/usr/bin/env bash
# The bindings for Rust: their own tests and the examples of their documentation, no unsafe function among their public
# ones, and just the functions of the C header. The last line is "N passed, M failed".
set -u
cd "$(dirname "$0")/.." || exit 1
passed=0
failed=0
work=$(mktemp -d) || exit 1
trap 'rm -rf "$work"' EXIT

if ./archive > "$work/archive" 2>&1; then passed=$((passed + 1)); else
    cat "$work/archive" target/archive.log
    failed=$((failed + 1))
fi

if (cd rust && cargo test --offline) > "$work/tests" 2>&1 && ! grep -q '^warning' "$work/tests"; then
    n=$(sed -nE 's/^test result: ok\. ([0-9]+) passed.*/\1/p' "$work/tests" | awk '{ n += $1 } END { print n }')
    echo "bindings for Rust: $n tests"
    passed=$((passed + n))
else
    cat "$work/tests"
    failed=$((failed + 1))
fi

if grep -rnE 'pub unsafe|pub extern' rust/src; then failed=$((failed + 1)); else passed=$((passed + 1)); fi

# every function of the header is declared, and no other
names() { sed -nE "s/$1/\\2/p" "${@:2}" | sort; }
if diff <(names '^(size_t |const char \*)(dgn_[a-z_]+)\(.*' include/dgn.h) <(names '^.*(\) = |    fn )(dgn_[a-z_]+)[;(].*' rust/src/*.rs); then
    passed=$((passed + 1))
else
    failed=$((failed + 1))
fi

echo "$passed passed, $failed failed"
[ "$failed" -eq 0 ] && [ "$passed" -gt 0 ]
