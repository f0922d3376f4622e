#!/usr/bin/env bash
# The outside tests: the second reader's own tests, both readers on the same inputs through the C interface, the program
# celllist against the second reader, the C header and the C examples, that of plates against the program platelist. Counts are
# added up; the last line is "N passed, M failed".
set -u
cd "$(dirname "$0")/.." || exit 1
top=$PWD
passed=0
failed=0
work=$(mktemp -d) || exit 1
trap 'rm -rf "$work"' EXIT

# count STATUS PASSED: a step's result
count() {
    if [ "$1" -eq 0 ]; then passed=$((passed + $2)); else failed=$((failed + 1)); fi
}

# run NAME COMMAND..: runs a program whose last line is "N passed, M failed", shows its output and counts it
run() {
    local name=$1 status
    shift
    "$@" > "$work/$name" 2>&1
    status=$?
    cat "$work/$name"
    count $status "$(tail -n 1 "$work/$name" | sed -E 's/^([0-9]+) passed.*/\1/')"
}

# the proved library as an archive, made beside the second reader's own tests
./archive > "$work/archive" 2>&1 &
archiving=$!

# the second reader's own tests
if (cd tests/reader && cargo test --release --offline) > "$work/reader" 2>&1; then
    n=$(grep -E '^test result: ok' "$work/reader" | sed -E 's/.* ([0-9]+) passed.*/\1/' | awk '{ n += $1 } END { print n }')
    count 0 "$n"
    echo "second reader: $n tests"
else
    cat "$work/reader"
    count 1 0
fi

wait "$archiving"
status=$?
[ $status -eq 0 ] || cat "$work/archive" target/archive.log
count $status 1

# both readers on the same inputs
if (cd tests/compare && cargo build --release --offline) > "$work/build" 2>&1; then
    run compare tests/compare/target/release/compare
else
    cat "$work/build"
    count 1 0
fi

# check NAME COMMAND..: counts whether the command succeeds
check() {
    local name=$1 status
    shift
    "$@"
    status=$?
    [ $status -eq 0 ] || echo "outside: $name"
    count $status 1
}

# every function as the C headers declare it
strict="-std=c99 -pedantic -O2 -Wall -Wextra -Werror -Iinclude"
check "header.c does not build" gcc $strict -o "$work/header" tests/header.c target/staticlib/libdgn.a
run header.out "$work/header"

# ends STATUS COMMAND..: whether the command ends with this status; its output is kept
ends() {
    local status=$1
    shift
    "$@" > "$work/out" 2> "$work/err"
    [ $? -eq "$status" ]
}

# prints STATUS OUT COMMAND..: whether it also prints just what the file OUT has
prints() {
    local status=$1 out=$2
    shift 2
    ends "$status" "$@" && diff "$work/out" "$out"
}

# full STATUS COMMAND..: whether the command ends with this status and says why where its output cannot be written
full() {
    local status=$1
    shift
    "$@" > /dev/full 2> "$work/err"
    [ $? -eq "$status" ] && grep -q "standard output" "$work/err"
}

# plates_alike PLATES FILE: whether the example prints of a file what the program platelist prints
plates_alike() { cmp <("$1" "$2" 2> /dev/null) <(crates/platelist/out/platelist < "$2"); }

# more than a program can hold: the sample library's cells a hundred times, and their plates
{ for ((k = 0; k < 100; k++)); do head -c 842 samples/seals.cel; done && printf '\377\377'; } > "$work/catalogue.cel"
for ((k = 0; k < 100; k++)); do
    printf '%d 2 2 0 0 0 0 0 00417\n%d 0 2 0 0 0 0 0 417\n%d 1 1 0 0 0 0 0 PUMP.1\n%d 0 0 0 0 0 0 0 EMPTY\n' $((421 * k)) $((421 * k + 181)) $((421 * k + 286)) $((421 * k + 386))
done > "$work/catalogue.out"

# hosts FOLDER: the C examples, built into the folder, print what is stored
hosts() {
    local cells=tests/real/a11_cells_2d.dgn nested=samples/nested.dgn saved=$work/saved.dgn file
    check "host" prints 0 examples/host.out "$1/host" $cells 00417
    check "host, a refused file" prints 1 examples/host-refused.out "$1/host" tests/real/a18_cell_hdr_link_dgnlib_2d.dgn 00417
    check "host, a folder" prints 3 /dev/null "$1/host" tests/real 00417
    check "host, a missing file" prints 3 /dev/null "$1/host" "$work/none.dgn" 00417
    check "host, a full disk" full 3 "$1/host" $cells 00417
    check "host, no such part and a full disk" full 3 "$1/host" $cells NONE
    check "session" prints 0 examples/session.out "$1/session"
    check "session, a full disk" full 5 "$1/session"
    check "parts" prints 0 examples/parts.out "$1/parts" $nested 00417 00418 "$saved"
    sed '$d; s/ 00417/ 00418/' examples/parts.out > "$work/renamed"
    echo "00418 is now 00417" >> "$work/renamed"
    check "parts, renamed back" prints 0 "$work/renamed" "$1/parts" "$saved" 00418 00417 "$saved.2"
    check "parts, renamed back: the file" cmp "$saved.2" $nested
    check "parts, a full disk" full 3 "$1/parts" $nested 00417 00418 "$saved"
    check "parts, a file that cannot be saved" ends 3 "$1/parts" $nested 00417 00418 /dev/full
    check "plates" prints 0 examples/plates.out "$1/plates" $cells
    check "plates, 2D" prints 0 examples/plates.out "$1/plates" $cells 2
    check "plates, 3D" prints 0 examples/plates-3d.out "$1/plates" tests/real/d04_cells_3d.dgn 3
    check "plates, above 65,536 bytes" prints 0 "$work/catalogue.out" "$1/plates" "$work/catalogue.cel"
    check "plates, a refused file" prints 1 <(echo "REFUSED 3 1100") "$1/plates" tests/real/a18_cell_hdr_link_dgnlib_2d.dgn
    check "plates, a refused file: why" grep -qx "plates: CUT: An element is cut off, or words are left over after a piece\." "$work/err"
    check "plates, a folder" prints 3 /dev/null "$1/plates" tests/real
    check "plates, a missing file" prints 3 /dev/null "$1/plates" "$work/none.dgn"
    check "plates, no such dimension" prints 2 /dev/null "$1/plates" $cells 4
    check "plates, a full disk" full 4 "$1/plates" $cells
    check "plates, a refused file and a full disk" full 4 "$1/plates" samples/shortened.cel
    for file in $drawings; do check "plates of $file are not those of platelist" plates_alike "$1/plates" "$file"; done
}

# all samples and real files
drawings=$(find samples tests/real -name '*.dgn' -o -name '*.cel')
check "samples and real files are missing" test "$(wc -w <<< "$drawings")" -gt 75

# with the archive
mkdir "$work/archived"
for name in host session parts plates; do
    check "$name.c does not build" gcc $strict -o "$work/archived/$name" "examples/$name.c" target/staticlib/libdgn.a
done
hosts "$work/archived"

# other NAME FUNCTION STATUS ARGUMENT..: whether an example ends with this status where one function returns 19 for all
# that it is handed
other() {
    local name=$1 function=$2 status=$3
    shift 3
    echo "unsigned long __wrap_$function(void) { return 19; }" > "$work/other.c"
    gcc -std=c99 -fno-builtin -Iinclude -o "$work/other" "examples/$name.c" "$work/other.c" \
        "-Wl,--wrap=$function" target/staticlib/libdgn.a || return 1
    ends "$status" "$work/other" "$@"
}

# every answer that an example gets is looked at
called() { gcc -std=c99 -Iinclude -c -o "$work/called.o" "examples/$1.c" && nm -u "$work/called.o" | sed -nE '/ dgn_refusal_/d; s/^ *U (dgn_[a-z_]+)$/\1/p'; }
for name in host session parts plates; do
    case $name in
    host) arguments=(tests/real/a11_cells_2d.dgn 00417) ;;
    plates) arguments=(tests/real/a11_cells_2d.dgn) ;;
    session) arguments=() ;;
    parts) arguments=(samples/nested.dgn 00417 00418 "$work/saved.dgn") ;;
    esac
    functions=$(called "$name")
    check "$name calls nothing" test -n "$functions"
    for function in $functions; do
        case $name:$function in
        # this one has no index
        parts:*_indexed) continue ;;
        session:dgn_write | session:dgn_pack) status=2 ;;
        session:dgn_record) status=3 ;;
        *) status=1 ;;
        esac
        check "$name does not look at the answer of $function" other "$name" "$function" $status "${arguments[@]}"
    done
done
check "session does not look at the bytes" other session memcmp 4

# with the installed copy, from C and from C++, by pkg-config, which is installed where it is missing
prefix=$work/prefix
check "the library is not installed" env -C "$work" "$top/archive" install prefix
as_root() { if [ "$(id -u)" -eq 0 ]; then "$@"; else sudo -n "$@"; fi; }
if ! command -v pkg-config > /dev/null; then
    { as_root apt-get update && as_root apt-get install -y --no-install-recommends pkg-config; } > "$work/apt" 2>&1 || cat "$work/apt"
fi
flags=$(PKG_CONFIG_PATH=$prefix/lib/pkgconfig pkg-config --cflags --libs dgn)
check "pkg-config does not read dgn.pc" test $? -eq 0
for language in "c -std=c99" "c++ -std=c++11"; do
    mkdir -p "$work/installed"
    for name in host session parts plates; do
        compiler=gcc
        [ "${language%% *}" = c ] || compiler=g++
        check "$name.c does not build by $compiler" env -C "$work" $compiler -x $language -Wall -Wextra -Wpedantic -Werror -O2 \
            -o "installed/$name" "$top/examples/$name.c" -x none $flags
    done
    export LD_LIBRARY_PATH=$prefix/lib
    hosts "$work/installed"
    unset LD_LIBRARY_PATH
    rm -r "$work/installed"
done

echo "$passed passed, $failed failed"
[ "$failed" -eq 0 ]
