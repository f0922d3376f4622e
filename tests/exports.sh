#!/usr/bin/env bash
# The static library dgn_c: it exports just the functions of the crates whose names begin with dgn, each with the same arguments and the same
# contract, word by word, and each does no more than to call that function; from outside it needs memcpy and memset alone. The patterns are
# tried on what they must find. The last line is "N passed, M failed".
set -u
cd "$(dirname "$0")/.." || exit 1
passed=0
failed=0
work=$(mktemp -d) || exit 1
trap 'rm -rf "$work"' EXIT

# check NAME COMMAND..: counts whether the command succeeds
check() {
    local name=$1
    shift
    if "$@"; then passed=$((passed + 1)); else
        echo "exports: $name"
        failed=$((failed + 1))
    fi
}

# heads FILE..: a line for each function for C: its head with its contract
heads() {
    awk '/^#\[unsafe\(no_mangle\)\]$/ { on = 1; head = ""; next }
        on && $0 == "{" { on = 0; print head; next }
        on { gsub(/^ +/, ""); head = head " " $0 }' "$@" | sort
}

# calls FILE..: a line for each: its name, the crate and the function that it calls, and whether it hands on its own arguments and does nothing else
calls() {
    awk '/^#\[unsafe\(no_mangle\)\]$/ { on = 1; head = body = ""; next }
        on == 1 && $0 == "{" { on = 2; next }
        on == 2 && $0 == "}" {
            on = 0
            name = head; sub(/^.* fn /, "", name); sub(/\(.*$/, "", name)
            sub(/^[^(]*\(/, "", head); sub(/\) ->.*$/, "", head); gsub(/: [^,]*/, "", head); gsub(/[ ,]+/, " ", head); gsub(/^ | $/, "", head)
            called = body; sub(/\(.*$/, "", called); gsub(/ /, "", called)
            sub(/^[^(]*\(/, "", body); sub(/\) *$/, "", body); gsub(/[ ,]+/, " ", body); gsub(/^ | $/, "", body)
            print name, called, (head == body ? "alike" : "other")
            next
        }
        on == 1 { head = head " " $0 }
        on == 2 { body = body " " $0 }' "$@" | sort
}

# the patterns themselves
export_of() {
    printf '#[unsafe(no_mangle)]\npub extern "C" fn dgn_a(file: &[u8], out: &mut [usize]) -> usize\n    ensures { %s }\n{\n    %s\n}\n' "$1" "$2"
}
export_of 'Replied 1 a' 'dgn_x::dgn_a(file, out)' > "$work/one"
export_of 'Replied 1 b' 'dgn_x::dgn_a(file, out)' > "$work/two"
check "another contract is not found" test "$(heads "$work/one")" != "$(heads "$work/two")"
check "a head is not found" test "$(heads "$work/one")" = ' pub extern "C" fn dgn_a(file: &[u8], out: &mut [usize]) -> usize ensures { Replied 1 a }'
check "a call is not found" test "$(calls "$work/one")" = "dgn_a dgn_x::dgn_a alike"
export_of 'Replied 1 a' 'dgn_x::dgn_a(out, file)' > "$work/two"
check "other arguments are not found" test "$(calls "$work/two")" = "dgn_a dgn_x::dgn_a other"
export_of 'Replied 1 a' $'out[0] = 1;\n    dgn_x::dgn_a(file, out)' > "$work/two"
check "more than a call is not found" test "$(calls "$work/two")" != "dgn_a dgn_x::dgn_a alike"

# the crates
library=crates/dgn_c/src/lib.rt
sources=$(find crates -path 'crates/dgn*/src/*' -name '*.rt' ! -path 'crates/dgn_c/*' | sort)
heads $sources > "$work/crates"
heads "$library" > "$work/library"
check "there are few functions for C" test "$(wc -l < "$work/crates")" -gt 35
check "a function of the crates (<) is another one in the library (>)" diff "$work/crates" "$work/library"
for source in $sources; do
    crate=${source#crates/}
    crate=${crate%%/*}
    heads "$source" | sed -E 's/^.* fn ([a-z_0-9]+)\(.*$/\1/' | while IFS= read -r name; do echo "$name $crate::$name alike"; done
done | sort > "$work/wanted"
check "an export (>) is no plain call of its function (<)" diff "$work/wanted" <(calls "$library")

# what the archive needs from outside: a host without the C library's other names can link it
archive=target/staticlib/libdgn.a

# outside OBJECT: the names that an object or an archive needs and has not, a name to a line
outside() {
    nm "$1" | awk '/:$/ { next } $1 == "U" { needed[$2] } $2 ~ /^[A-Z]$/ { had[$3] } END { for (name in needed) if (!(name in had)) print name }' | sort
}

object() { gcc -x c -w -O0 -fno-builtin -c -o "$work/$1.o" -; }
object needs <<< 'void *memmove(void *, const void *, unsigned long); void g(void); void f(char *p) { memmove(p + 1, p, 9); g(); }'
object has <<< 'static void *memmove(void *p, const void *q, unsigned long n) { return p; } void g(void) { memmove(0, 0, 0); }'
(cd "$work" && ar rcs needs.a needs.o has.o)
check "a name from outside is not found" test "$(outside "$work/needs.a")" = memmove
check "the archive is not built" ./archive
check "a function of dgn_c does not begin at a multiple of 64 bytes" test "$(objdump -h "$archive" | awk '$2 ~ /^[.]text[.]/ { print $7 }' | sort -u)" = '2**6'
check "the archive needs other names than memcpy and memset: $(outside "$archive" | xargs)" test "$(outside "$archive" | xargs)" = "memcpy memset"

echo "$passed passed, $failed failed"
[ "$failed" -eq 0 ]
