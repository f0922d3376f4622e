#!/usr/bin/env bash
# No divide: the archive has no divide instruction and calls no routine that divides, and the sources of its crates divide by
# powers of two alone, which are shifts, and call no method of the library that divides by another size. Each pattern is tried on what it must find. The last line is "N passed, M failed".
set -u
cd "$(dirname "$0")/.." || exit 1
passed=0
failed=0
work=$(mktemp -d) || exit 1
trap 'rm -rf "$work"' EXIT

# check NAME COMMAND..: counts whether the command succeeds
check() {
    local name=$1
    shift
    if "$@"; then passed=$((passed + 1)); else
        echo "no_divide: $name"
        failed=$((failed + 1))
    fi
}

# instructions OBJECT: of an object or an archive a line for each instruction, its function and its mnemonic
instructions() {
    objdump -d --no-show-raw-insn "$1" | awk '
        />:$/ { f = $2 }
        /^ *[0-9a-f]+:\t/ { i = 2; while ($i ~ /^(lock|rep|repz|repnz|bnd|notrack|data16|rex.*)$/) i++; print f, $i }'
}

# divides OBJECT: those that divide, of integers, in SSE and AVX registers, on the x87 stack
divides() { instructions "$1" | grep -E ' (i?div[bwlq]?|v?div[sp][sdh]|fi?divr?p?[sl]?)$'; }

# routines OBJECT: the routines that it needs and that divide
routines() { nm -u "$1" | sed -nE 's/^ *U (.*)$/\1/p' | grep -E '^(__(u?div|u?mod|u?divmod)[dts][ifc][0-9]?|__aeabi_.*div.*|l?l?div|fmodf?l?|remainderf?l?)$'; }

some() { [ -n "$("$@")" ]; }
none() { [ -z "$("$@")" ]; }

# object NAME OPTION..: an object of the C function on standard input
object() {
    local name=$1
    shift
    gcc -x c -O2 -c "$@" -o "$work/$name.o" -
}

# found NAME OPTION..: whether a divide is found in the function on standard input
found() { object "$@" && some divides "$work/$1.o"; }

check "div is not found" found div <<< 'unsigned long f(unsigned long a, unsigned long b) { return a / b; }'
check "div of 32 bits is not found" found div32 <<< 'unsigned f(unsigned a, unsigned b) { return a % b; }'
check "div of 8 bits is not found" found div8 <<< 'unsigned char f(unsigned char a) { __asm__("div %b1" : "+a"(a) : "r"(a)); return a; }'
check "idiv is not found" found idiv <<< 'long f(long a, long b) { return a / b; }'
check "divsd is not found" found divsd <<< 'double f(double a, double b) { return a / b; }'
check "divss is not found" found divss <<< 'float f(float a, float b) { return a / b; }'
check "divps is not found" found divps <<< 'typedef float v __attribute__((vector_size(16))); v f(v a, v b) { return a / b; }'
check "vdivsd is not found" found vdivsd -mavx <<< 'double f(double a, double b) { return a / b; }'
check "vdivpd is not found" found vdivpd -mavx <<< 'typedef double v __attribute__((vector_size(32))); v f(v a, v b) { return a / b; }'
check "fdivp is not found" found fdiv <<< 'long double f(long double a, long double b) { return a / b; }'
check "a routine is not found" object routine <<< 'unsigned __int128 f(unsigned __int128 a, unsigned __int128 b) { return a / b; }'
check "a routine is not found" some routines "$work/routine.o"
check "shifts do not build" object shifts <<< 'unsigned long f(unsigned long a) { return a / 256 % 16 + a * 43691 / 131072; }'
check "a divide is found where there is none" none divides "$work/shifts.o"
check "a routine is found where there is none" none routines "$work/shifts.o"

# the archive
archive=target/staticlib/libdgn.a
check "the archive is not built" ./archive
check "the archive has no instructions" test "$(instructions "$archive" | wc -l)" -gt 1000
check "the archive divides: $(divides "$archive")" none divides "$archive"
check "the archive calls $(routines "$archive")" none routines "$archive"

# code FILE: a source without its comments, imports of definitions and contracts, each of which is a line
code() { sed -E 's://.*$::; /^ *ghost use /d; /^ *(requires|ensures)\*?( [a-z_0-9]+)? \{ .* \}[;,]?$/d' "$1"; }

# divisors FILE: the lines that divide, or take a remainder, by anything but a power of two
divisors() {
    code "$1" | awk -v file="$1" '
        function power(n) { while (n > 1 && n % 2 == 0) n /= 2; return n == 1 }
        { for (rest = $0; match(rest, /[\/%]=? */);) {
              rest = substr(rest, RSTART + RLENGTH)
              if (!match(rest, /^[0-9]+([^0-9A-Za-z_.]|$)/) || !power(rest + 0)) { print file ": " $0; next }
          } }'
}

# methods FILE: the lines that call what divides in the library, by the number that it is given, where that is no power of two
methods() {
    code "$1" | awk -v file="$1" '
        function power(n) { while (n > 1 && n % 2 == 0) n /= 2; return n == 1 }
        { for (rest = $0; match(rest, /as_r?chunks(_mut)?(::<)? *|([.]|::)(r|array_)?chunks(_exact)?(_mut)?(::<|[(]) *|([.]|::)step_by[(] *|([.]|::)([a-z]+_)?(div|rem)(_[a-z]+)?[(] *|([.]|::)((is|(checked_)?next)_multiple_of|(checked_)?ilog(10)?|isqrt)[(] */);) {
              rest = substr(rest, RSTART + RLENGTH)
              if (!match(rest, /^[0-9]+ *[>)]/) || !power(rest + 0)) { print file ": " $0; next }
          } }'
}

# the crate of the archive and those that it names, at any depth
library() {
    local crate
    crate=$(sed -nE 's/^crate=(.*)$/\1/p' archive)
    awk -v crates="$crate" '
        /^[a-z]/ { sub(/ *staticlib/, ""); name = $1; sub(/:$/, "", name); $1 = ""; names[name] = $0 }
        END { n = split(crates, todo); for (i = 1; i <= n; i++) seen[todo[i]] = 1
              for (i = 1; i <= n; i++) { m = split(names[todo[i]], more)
                  for (k = 1; k <= m; k++) if (!(more[k] in seen)) { seen[more[k]] = 1; todo[++n] = more[k] } }
              for (i = 1; i <= n; i++) print todo[i] }' crates.txt | sort
}

for text in 'n / 3' 'n % dim' 'n /= 10' 'n %= 6' 'n / (a + b)' 'x / 2 + y / 3' 'n / 2x' 'n / 0'; do
    echo "    let q = $text; // by 2" > "$work/source"
    check "$text is not found" some divisors "$work/source"
done
printf '%s\n' '// n / 3' 'ghost use Rattle.std.specs.Prelude.{◌/◌, ◌%◌};' '    ensures { result ≡ n / 3 }' \
    '    requires low { n / 3 < 2 ^ 8 }' '    ensures* kept { n / 7 };' '    rest /= 2;' '    w / 256 % 16 + n * 43691 / 131072' > "$work/source"
check "a divisor is found where there is none" none divisors "$work/source"

for text in 's.as_chunks::<3>()' 's.as_chunks_mut::<N>()' 's.as_chunks()' 's.chunks(6)' 's.chunks_exact(n)' '<[u8]>::chunks(s, 3)' 's.array_chunks()' '(0..n).step_by(5)' \
    'n.div_ceil(10)' 'usize::div_ceil(n, 3)' 'n.checked_rem(3)' 'n.div(3)' 'n.next_multiple_of(6)' 'n.isqrt()' 'n.ilog10()'; do
    echo "    let q = $text; // .chunks(2)" > "$work/source"
    check "$text is not found" some methods "$work/source"
done
printf '%s\n' '// s.chunks(3)' '    let (a, b) = s.as_chunks::<2>();' '    for c in s.chunks_exact(512) {' '    let k = n.div_ceil(4) + chunks(3) + n.ilog2();' > "$work/source"
check "a method that divides is found where there is none" none methods "$work/source"

crates=$(library)
for name in dgn_c names thirds fields text_writer dgn_texts; do
    check "$name is no crate of the library" grep -qx "$name" <<< "$crates"
done
check "a crate of the programs is one of the library" none grep -xE 'listing|plate_lines|celllist|textlist|platelist' <<< "$crates"
for name in $crates; do
    for source in crates/"$name"/src/*.rt; do
        check "$(divisors "$source")" none divisors "$source"
        check "$(methods "$source")" none methods "$source"
        check "$source has a contract on several lines" none grep -nwE 'requires|ensures' <<< "$(code "$source")"
    done
done

echo "$passed passed, $failed failed"
[ "$failed" -eq 0 ]
