#!/usr/bin/env bash
# The command dgn: its own tests, the stored transcripts (command/transcripts) run anew, that README.md shows no others, the man
# page, odd names, devices, full disks, permissions, files that change while they are read, memory. The last line is
# "N passed, M failed". tests/command.sh --store writes the transcripts anew.
set -u
cd "$(dirname "$0")/.." || exit 1
top=$PWD
passed=0
failed=0
work=$(mktemp -d) || exit 1
trap 'umount "$work/odd/small" 2> /dev/null; chmod -R u+rwX "$work"; rm -rf "$work"' EXIT

# check NAME COMMAND..: counts whether the command succeeds
check() {
    local name=$1
    shift
    if "$@"; then passed=$((passed + 1)); else
        echo "command: $name"
        failed=$((failed + 1))
    fi
}

if ! ./dgn --version > "$work/built" 2>&1; then
    cat "$work/built"
    echo "0 passed, 1 failed"
    exit 1
fi
passed=1
program=$top/target/command/release/dgn

# its own tests
if (cd command && cargo test --release --offline --target-dir ../target/command) > "$work/tests" 2>&1 && ! grep -q '^warning' "$work/tests"; then
    n=$(sed -nE 's/^test result: ok\. ([0-9]+) passed.*/\1/p' "$work/tests" | awk '{ n += $1 } END { print n }')
    echo "the command's own tests: $n"
    passed=$((passed + n))
else
    cat "$work/tests"
    failed=$((failed + 1))
fi

# folder NAME: a folder to work in, with the samples, the real files and dgn
folder() {
    mkdir -p "$work/$1/tests" && cp -r "$top/samples" "$work/$1/" && cp -r "$top/tests/real" "$work/$1/tests/" &&
        ln -s "$top/dgn" "$work/$1/dgn"
}

# replay FILE: runs the commands of a transcript, which are the lines that begin with "$ ", each in a new shell; prints them,
# what they print and their status where it is not 0
replay() {
    local line
    grep '^\$ ' "$1" | while IFS= read -r line; do
        printf '%s\n' "$line"
        bash -c "${line#\$ }" < /dev/null 2>&1
        local status=$?
        [ $status -eq 0 ] || echo "(status $status)"
    done
}

# alike: times, and the name of who runs the test, put the same
alike() { sed -E "s/[0-9]{4}-[0-9]{2}-[0-9]{2} [0-9]{2}:[0-9]{2}:[0-9]{2}  ($(id -un)|root) +/TIME USER /"; }

for transcript in command/transcripts/*.txt; do
    place=$(basename "$transcript" .txt)
    folder "run-$place"
    (cd "$work/run-$place" && replay "$top/$transcript") > "$work/$place.out"
    same() { diff <(alike < "$transcript") <(alike < "$work/$place.out"); }
    if [ "${1-}" = --store ] && ! same > /dev/null; then cp "$work/$place.out" "$transcript"; fi
    check "$transcript is not what is printed (<)" same
done

# README.md shows what is stored: each of its blocks that begins with ./dgn stands in a transcript
awk -v to="$work/block" '/^```/ { inside = !inside; if (inside) n++; next } inside { print > (to n) }' README.md
for block in "$work"/block*; do
    [[ $(head -n 1 "$block") == '$ ./dgn '* ]] || continue
    shown() { for transcript in command/transcripts/*.txt; do [[ $'\n'$(alike < "$transcript")$'\n' == *$'\n'"$(alike < "$block")"$'\n'* ]] && return 0; done; return 1; }
    check "README.md shows what no transcript has: $(head -n 1 "$block")" shown
done

# the man page and --help are of one text
squeezed() { tr -s ' \n' '\n\n' | sed 's/\\-/-/g; s/\\e/\\/g' | grep -v '^\.' ; }
"$program" help --man > "$work/man"
check "the man page has no head" grep -q '^\.TH DGN 1 ' "$work/man"
for subcommand in $("$program" --help | sed -n '/^Subcommands:/,/^$/s/^  \([a-z]*\) .*/\1/p'); do
    "$program" "$subcommand" --help > "$work/help"
    check "$subcommand --help begins with its usage" grep -q "^usage: dgn $subcommand " "$work/help"
    missing=$(comm -23 <(sed '/^Options of\|^usage/d' "$work/help" | squeezed | sort -u) <({ squeezed < "$work/man" && sed -n 's/^\.[A-Z]* //p' "$work/man" | squeezed && echo Options: && echo Status:; } | sort -u))
    check "the man page has not all of $subcommand --help: $missing" test -z "$missing"
    check "help $subcommand" cmp -s "$work/help" <("$program" help "$subcommand")
done
if command -v man > /dev/null; then check "man complains" test -z "$(MANWIDTH=80 man --warnings -l "$work/man" 2>&1 > /dev/null)"; fi

# ends STATUS COMMAND..: whether the command ends with this status; its outputs are kept
ends() {
    local status=$1
    shift
    "$@" > "$work/out" 2> "$work/err"
    [ $? -eq "$status" ]
}
says() { grep -q -- "$1" "$work/err"; }
prints() { grep -q -- "$1" "$work/out"; }

folder odd
cd "$work/odd" || exit 1

# outputs that cannot be written
full() { "$@" > /dev/full 2> "$work/err"; [ $? -eq 3 ] && says "standard output cannot be written"; }
for arguments in "--help" "--version" "help --man" "check samples" "list samples/seals.cel" "parts samples/seals.cel" "plates samples/seals.cel" \
    "find 417 samples" "index samples/seals.cel" "lookup samples/seals.cel.dgnidx 417" "text samples/plate.dgn" "show samples/seals.cel 417" "compare samples/seals.cel samples/nested.dgn"; do
    # shellcheck disable=SC2086
    check "a full disk: $arguments" full "$program" $arguments
done
closed() { ./dgn list samples/seals.cel >&- 2> "$work/err"; [ $? -eq 3 ] && says "standard output cannot be written"; }
check "no standard output" closed
# a pipe without a reader: the reading end is closed before the command begins
mkfifo closed.pipe && exec 6<> closed.pipe 7> closed.pipe && exec 6>&-
piped() { "$program" list samples/nested.dgn >&7 2> "$work/err"; [ $? -eq 3 ] && [ ! -s "$work/err" ]; }
check "a pipe that is closed" piped
exec 7>&-

# names
cp samples/seals.cel "a b.cel" && cp samples/seals.cel -- -x.cel && cp samples/seals.cel $'\xff\t\'.cel'
check "a name with a space" ends 0 "$program" check "a b.cel"
check "a name with a dash" ends 2 "$program" check -x.cel
check "a name with a dash behind --" ends 0 "$program" check -- -x.cel
check "a name that is no UTF-8" ends 0 "$program" list $'\xff\t\'.cel'
check "a name that is no UTF-8 is shown for the shell" prints "^\$'\\\\xff\\\\x09\\\\'.cel': 2D"
eval "again=$(sed -n '1s/: 2D.*//p' "$work/out")"
check "a name that is shown is the name for the shell" test "$again" = $'\xff\t\'.cel'
check "names by a list" ends 0 "$program" check --null --from <(printf '%s\0' "a b.cel" -x.cel $'\xff\t\'.cel')
check "names by a list: how many" prints "^3 files: 3 good"
check "names on standard input" ends 1 "$program" check --from - < <(printf 'a b.cel\nsamples/shortened.cel\n')
check "names by a list that is not there" ends 3 "$program" check --from none
check "names by a list and others" ends 2 "$program" check --from none samples

# what is no file
mkfifo pipe
for what in /dev/null /dev/zero pipe samples none; do
    for subcommand in list parts plates text "show x.dgn" "find 417"; do
        case $subcommand in
        "show x.dgn") ends 3 "$program" show "$what" 417 ;;
        "find 417") [ "$what" = samples ] || ends 3 "$program" find 417 "$what" ;;
        *) ends 3 "$program" "$subcommand" "$what" ;;
        esac
        check "$subcommand $what" test $? -eq 0
    done
    [ "$what" = samples ] || check "check $what" ends 3 "$program" check "$what"
done
mkdir links && ln -s ../none.dgn links/broken.dgn && ln -s .. links/up && ln -s ../samples/seals.cel links/good.cel && mkfifo links/pipe.dgn
check "links and a pipe in a folder" ends 3 "$program" check links
check "links and a pipe in a folder: how many" prints "^3 files: 1 good .*, 0 refused, 2 not read"
check "an empty folder" eval 'mkdir empty && ends 1 "$program" check empty'
check "3 wins over 1" ends 3 "$program" check samples none
check "3 wins over 1, the other way round" ends 3 "$program" check none samples

# sizes: none, odd, the longest and a byte more
: > none.dgn && printf 'x' > odd.dgn
{ printf '\0\5\376\177' && head -c 65532 /dev/zero; } > long
{ for ((k = 0; k < 15; k++)); do cat long; done && printf '\0\5\375\177' && head -c 65530 /dev/zero && printf '\377\377'; } > long.dgn
check "the longest file: its size" test "$(stat -c %s long.dgn)" -eq 1048576
check "the longest file" ends 0 "$program" check --2d long.dgn
{ cat long.dgn && printf 'x'; } > longer.dgn && { cat long.dgn long.dgn; } > longest.dgn
for file in none odd longer longest; do check "$file.dgn" ends 1 "$program" list $file.dgn; done
check "more than a file can have is told" says "more than 1,048,576 bytes"

# permissions; root may read all, so another user tries
if [ "$(id -u)" -eq 0 ]; then
    chmod 755 "$work"
    cp "$program" "$work/other" && chmod 755 "$work/other"
    as=(setpriv --reuid=65534 --regid=65534 --clear-groups "$work/other")
else
    as=("$program")
fi
cp samples/seals.cel secret.cel && chmod 0 secret.cel && mkdir closed && cp samples/seals.cel closed && chmod 0 closed
check "no permission: a file" ends 3 "${as[@]}" check secret.cel
check "no permission is told" prints "^secret.cel: cannot be read: Permission denied$"
check "no permission: a file to list" ends 3 "${as[@]}" list secret.cel
check "no permission: a folder" ends 3 "${as[@]}" check closed samples/seals.cel
check "no permission: a folder is told" prints "^closed: cannot be read: Permission denied$"
mkdir shut owned && cp samples/seals.cel shut && cp samples/seals.cel owned && chmod 666 owned/seals.cel && chmod 777 owned
if [ "$(id -u)" -eq 0 ]; then
    chown 65534:65534 shut/seals.cel
    for option in --dry-run --quiet; do
        check "another's file, $option" ends 3 "${as[@]}" rename owned/seals.cel 417 418 $option
        check "another's file, $option: who may edit it is told" says "belongs to the user root .*its owner edits it"
    done
    check "another's file: a name is left" test "$(ls owned)" = seals.cel
fi
chmod 555 shut
check "no permission: a folder, dry run" ends 3 "${as[@]}" rename shut/seals.cel 417 418 --dry-run
check "no permission: a folder, dry run, is told" says "cannot write the folder of shut/seals.cel: Permission denied"
check "no permission: a file to write" ends 3 "${as[@]}" extract samples/seals.cel 417 -o shut/out

# extract never writes over a file, and leaves none where it fails
check "extract" ends 0 "$program" extract samples/seals.cel 417 -o piece
check "extract: over a file" ends 3 "$program" extract samples/seals.cel 417 -o piece
check "extract: the bytes" cmp piece <(tail -c +363 samples/seals.cel | head -c 210)
if [ "$(id -u)" -eq 0 ] && mkdir small && mount -t tmpfs -o size=4k none small 2> "$work/err"; then
    head -c 4096 /dev/zero > small/filler
    check "extract: a full disk" ends 3 "$program" extract samples/seals.cel 417 -o small/out
    check "extract: a full disk leaves no file" test ! -e small/out
    umount small
else
    check "extract: a full disk" ends 3 "$program" extract samples/seals.cel 417 -o /dev/full
fi

# index replaces an index, as a whole or not at all, and nothing else; its other name goes
check "index" ends 0 "$program" index samples/seals.cel
check "index: the bytes" cmp samples/seals.cel.dgnidx <(printf '\x58\x21\xe8\x80\0\0\x82\x01\x55\x67\x7f\x68\0\0\x1e\x01\x52\xc0\x88\xc7\0\0\0\0\x7d\xd9\0\0\0\0\xb5\0')
cp samples/nested.dgn samples/seals.cel.dgnidx
check "index: over an index" ends 0 "$program" index samples/seals.cel
check "index: over an index: how many entries" test "$(stat -c %s samples/seals.cel.dgnidx)" -eq 32
ln -s seals.cel samples/link.dgnidx && mkfifo samples/pipe.dgnidx
for out in link pipe; do
    check "index: over a $out" ends 3 "$program" index samples/seals.cel -o samples/$out.dgnidx
    check "index: over a $out is told" says "samples/$out.dgnidx cannot be written: what stands there is no file"
done
check "index: the file by another name" eval 'ln samples/seals.cel samples/same.dgnidx && ends 3 "$program" index samples/seals.cel -o samples/same.dgnidx && says "it is the file that is to be indexed"'
check "index: the file stays" cmp samples/seals.cel samples/same.dgnidx
check "index: a name of a log" ends 2 "$program" index samples/seals.cel -o samples/seals.cel.dgnlog.dgnidx
check "index: no permission" ends 3 "${as[@]}" index samples/seals.cel -o shut/out.dgnidx
check "index: no such folder" ends 3 "$program" index samples/seals.cel -o none/out.dgnidx
if [ "$(id -u)" -eq 0 ] && mkdir -p small && mount -t tmpfs -o size=8k none small 2> "$work/err"; then
    head -c 4096 /dev/zero > small/filler && printf 'the old one' > small/out.dgnidx
    check "index: a full disk" ends 3 "$program" index samples/seals.cel -o small/out.dgnidx
    check "index: a full disk leaves what was there" eval 'grep -qx "the old one" small/out.dgnidx && [ "$(ls small | wc -l)" -eq 2 ]'
    umount small
else
    check "index: a full disk" ends 3 "$program" index samples/seals.cel -o /dev/full
fi
rm samples/*.dgnidx
check "index: other names are left" test -z "$(find . -name '*.new')"

# a file that is changed while it is read, by a library that is loaded before: it grows, shrinks or is written to after a read
check "changed.c does not build" gcc -shared -fPIC -O2 -Wall -Wextra -Werror -o "$work/changed.so" "$top/tests/changed.c" -ldl
for how in grow shrink write; do
    cp samples/seals.cel "$how.cel" && touch -d 2020-01-01 "$how.cel"
    check "a file that changes ($how)" ends 3 env LD_PRELOAD="$work/changed.so" CHANGE=$how "$program" check $how.cel
    check "a file that changes ($how) is told" prints "it was changed while it was read"
    cp samples/seals.cel "$how.cel" && touch -d 2020-01-01 "$how.cel"
    check "a file that changes ($how), list" ends 3 env LD_PRELOAD="$work/changed.so" CHANGE=$how "$program" list $how.cel
done

# memory: 9,000 files, among them the longest ones, and 900
check "peak.c does not build" gcc -O2 -Wall -Wextra -Werror -o "$work/peak" "$top/tests/peak.c"
mkdir -p many/0 few && for ((k = 0; k < 88; k++)); do cp samples/nested.dgn many/0/$k.dgn; done
cp long.dgn many/0/ && { for ((k = 0; k < 16383; k++)); do printf '\0\5\0\0'; done && printf '\377\377'; } > many/0/small.dgn
for ((k = 1; k < 100; k++)); do cp -rl many/0 many/$k; done && for ((k = 0; k < 10; k++)); do cp -rl many/0 few/$k; done
peak() { "$work/peak" "$program" check "$@" 2>&1 > "$work/out" | tail -n 1; }
for jobs in 1 2 16; do
    few=$(peak -j $jobs --2d few) many=$(peak -j $jobs --2d many)
    check "9,000 files" prints "^9,000 files: 9,000 good"
    echo "memory, $jobs at a time: $few KiB for 900 files, $many KiB for 9,000"
    check "memory: 64 MiB, $jobs at a time" test "$many" -lt 65536
    # of 16 threads not each one gets a long file among the 900
    [ $jobs -gt 2 ] || check "memory grows with the number of files" test $((many - few)) -lt 2048
done
check "memory: list" test "$("$work/peak" "$program" list --2d many/0/long.dgn 2>&1 > /dev/null | tail -n 1)" -lt 65536

# the same lines for any number of jobs
check "the order of the output" cmp <("$program" check -j 1 samples tests 2>&1) <("$program" check -j 7 samples tests 2>&1)
# the lines of several runs joined are those of one
check "tsv lines are joined" cmp <("$program" check --tsv samples tests/real) <("$program" check --tsv samples; "$program" check --tsv tests/real)
find samples tests -name '*.dgn' | sort > names && split -d -n l/3 names names.
for k in names.*; do "$program" check --tsv --from $k; done > joined
check "tsv lines of a list that is split" cmp joined <("$program" check --tsv --from names)
check "tsv: 17 columns" test "$("$program" check --tsv samples tests none | awk -F '\t' '{ print NF }' | sort -u)" = 17

# the plates are those of the program platelist, on all samples and real files that it accepts as 2D
plates() { "$program" plates --2d --tsv "$1" 2> /dev/null | cut -f 3-11 | tr '\t' ' ' | sed 's/ $//'; }
listed=0
for file in $(find samples tests/real -name '*.dgn' -o -name '*.cel'); do
    "$top/crates/platelist/out/platelist" < "$file" > platelist.out
    grep -q REFUSED platelist.out && continue
    check "plates of $file" cmp platelist.out <(plates "$file")
    listed=$((listed + $(wc -l < platelist.out)))
done
check "plates: how many" test $listed -gt 40

# the first run, in a copy where nothing is built, with a stand-in for rt that fails, then with the archive; and the second
cd "$top" || exit 1
mkdir -p "$work/copy/crates/dgn_c" "$work/bin" "$work/few"
cp -r dgn archive include c crates.txt rust command "$work/copy" && rm -rf "$work/copy"/*/target "$work/copy"/*/Cargo.lock
printf '#!/bin/sh\necho "rt: chose --jobs 2 for words"\necho "rt: NOT PROVED"\nexit 1\n' > "$work/bin/rt" && chmod +x "$work/bin/rt"
check "a build that fails" ends 2 env PATH="$work/bin:$PATH" "$work/copy/dgn" --version
check "a build that fails says what it proves" says "proving dgn_c and the [1-9][0-9] crates it depends on"
check "a build that fails says how far it is" says "proving words (1 of at most [1-9][0-9])"
check "a build that fails says so" says "the command is not built"
for name in bash dirname readlink find flock mkdir touch; do ln -s "$(command -v $name)" "$work/few"; done
check "a build without cargo" ends 2 env PATH="$work/few" "$work/copy/dgn" --version
check "a build without cargo says so" says "cargo is needed"
mkdir -p "$work/copy/target" && cp -r target/staticlib "$work/copy/target" && touch "$work/copy"/target/staticlib/*
check "the first run" ends 0 "$work/copy/dgn" --version
check "the first run says what it does" cmp -s "$work/err" <(echo "dgn: compiling the command")
check "the second run" ends 0 "$work/copy/dgn" --version
check "the second run builds again" test ! -s "$work/err"
check "from another folder, by a link" eval 'ln -s "$top/dgn" "$work/link" && (cd "$work/odd" && ends 0 "$work/link" list "a b.cel")'

# no unsafe code
check "unsafe code" test -z "$(grep -rn 'unsafe' command/src | grep -v 'forbid(unsafe_code)')"
check "unsafe code is not forbidden" test "$(grep -l 'forbid(unsafe_code)' command/src/lib.rs command/src/main.rs | wc -l)" -eq 2

echo "$passed passed, $failed failed"
[ "$failed" -eq 0 ]
