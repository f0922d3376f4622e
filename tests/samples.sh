#!/usr/bin/env bash
# The sample files and the scripts archive and list: samples/make.c makes the stored files byte for byte; list prints the
# stored outputs, and README.md shows them. The last line is "N passed, M failed".
set -u
cd "$(dirname "$0")/.." || exit 1
top=$PWD
passed=0
failed=0
work=$(mktemp -d) || exit 1
trap 'rm -rf "$work"' EXIT

# check NAME COMMAND..: counts whether the command succeeds
check() {
    local name=$1
    shift
    if "$@"; then passed=$((passed + 1)); else
        echo "samples: $name"
        failed=$((failed + 1))
    fi
}

# lists STATUS OUT ARGUMENT..: whether list ends with this status and prints just what the file OUT has
lists() {
    local status=$1 out=$2
    shift 2
    "$top/list" "$@" > "$work/out" 2> "$work/err"
    [ $? -eq "$status" ] && cmp "$work/out" "$out"
}

quiet() { [ ! -s "$work/err" ]; }
said() { grep -q "$1" "$work/err"; }

# shows COMMAND OUT: whether README.md has the command, and below it all that OUT has
shows() { [[ $(cat README.md) == *$'\n$ '"$1"$'\n'"$(cat "$2")"$'\n'* ]]; }

# the library as an archive
archive=target/staticlib/libdgn.a
check "the archive is not built" ./archive
(cd "$work" && "$top/archive") > "$work/err" 2>&1
check "the archive is built again" quiet

# the stored files
check "make.c does not build" gcc -std=c99 -pedantic -O2 -Wall -Wextra -Werror -Iinclude -o "$work/make" samples/make.c "$archive"
mkdir "$work/made"
check "make fails" "$work/make" "$work/made"
for file in samples/*.cel samples/*.dgn; do
    cmp "$file" "$work/made/${file#samples/}" >&2 && echo "${file#samples/}"
done > "$work/same"
check "the files are not those that make makes" cmp "$work/same" <(cd "$work/made" && printf '%s\n' *.cel *.dgn)

# the outputs
for file in samples/*.cel samples/*.dgn; do
    out=${file%.*}.out
    case $(cat "$out") in REFUSED*) status=1 ;; *) status=0 ;; esac
    check "list $file" lists $status "$out" "$file"
    if [ $status -eq 1 ]; then check "list $file does not name the table of refusals" said 'README.md, "Refusals"'; fi
    command="./list $file"
    [ "$file" != samples/seals.cel ] || command=./list
    check "README.md does not show $command" shows "$command" "$out"
done
check "list --text samples/plate.dgn" lists 0 samples/plate.text --text samples/plate.dgn
check "README.md does not show ./list --text samples/plate.dgn" shows "./list --text samples/plate.dgn" samples/plate.text

# the C host as README.md shows it
check "host.c does not build" gcc -Iinclude -o "$work/host" examples/host.c "$archive"
"$work/host" samples/nested.dgn 00417 > "$work/host.out"
check "README.md does not show what the C host prints" shows "./host samples/nested.dgn 00417" "$work/host.out"

# the plates, by the C example and by the program
check "plates.c does not build" gcc -Iinclude -o "$work/plates" examples/plates.c "$archive"
"$work/plates" tests/real/a11_cells_2d.dgn > "$work/plates.out"
check "README.md does not show what the example of plates prints" shows "./plates tests/real/a11_cells_2d.dgn" "$work/plates.out"
crates/platelist/out/platelist < samples/seals.cel > "$work/plates.out"
check "README.md does not show what platelist prints" shows "crates/platelist/out/platelist < samples/seals.cel" "$work/plates.out"

# no file, from another folder, by a link, a missing file, a folder, two files
check "list" lists 0 samples/seals.out
check "list says something where nothing is to be built" quiet
check "list --text" lists 0 samples/plate.text --text
check "list --text says something where nothing is to be built" quiet
check "list --text, a file without texts" lists 0 <(echo "PLACE DEPTH STATE TEXT" && echo "END 345") --text samples/nested.dgn
check "list --text, a refusal" lists 1 samples/shortened.out --text samples/shortened.cel
check "list --text, a refusal: the table of refusals is not named" said 'README.md, "Refusals"'
check "list --text, a missing file" lists 3 /dev/null --text "$work/none.dgn"
check "list --text, two files" lists 2 /dev/null --text samples/plate.dgn samples/empty.dgn
check "list --text --help" lists 0 <("$top/list" --help) --text --help
cp samples/nested.dgn "$work/a drawing.dgn"
cd "$work" || exit 1
check "from another folder" lists 0 "$top/samples/nested.out" "a drawing.dgn"
cd "$top" || exit 1
ln -s "$top/list" "$work/link"
check "by a link" cmp <("$work/link") samples/seals.out
check "a missing file" lists 3 /dev/null "$work/none.dgn"
check "a missing file is not named" said "none.dgn"
check "a folder" lists 3 /dev/null samples
check "a folder is not named" said "samples cannot be read"
check "two files" lists 2 /dev/null samples/nested.dgn samples/empty.dgn
check "help" lists 0 <("$top/list" --help) --help
check "help does not say what the status means" grep -q "^Status: 0 listed; 1 " "$work/out"

# reads and writes that fail
full() { "$@" > /dev/full 2> "$work/err"; [ $? -eq 3 ]; }
closed() { "$@" >&- 2> "$work/err"; [ $? -eq 3 ]; }
check "a full disk" full "$top/list"
check "a full disk is not told" said "standard output cannot be written"
check "a full disk, a refusal" full "$top/list" samples/shortened.cel
check "a full disk, texts" full "$top/list" --text
check "a full disk, help" full "$top/list" --help
check "no standard output" closed "$top/list"
for name in celllist textlist platelist; do
    program=crates/$name/out/$name
    check "$name of a folder" cmp <("$program" < samples 2> /dev/null) /dev/null
    "$program" < samples 2> "$work/err" > /dev/null
    check "$name of a folder: what it says" cmp "$work/err" <(echo "$name: standard input cannot be read")
    "$program" < samples/seals.cel 2> "$work/err" > /dev/full
    check "$name, a full disk: what it says" cmp "$work/err" <(echo "$name: standard output cannot be written")
done

# the longest file, with as many lines as there can be, and one byte more
{ printf '\0\5\0\0%.0s' {1..16383} && printf '\377\377\0\0'; } > "$work/long.dgn"
"$top/list" "$work/long.dgn" > "$work/out"
check "the longest file" cmp "$work/out" <(
    echo "PLACE DEPTH TYPE WORDS STATE NAME"
    for ((k = 0; k < 16383; k++)); do echo "$((2 * k)) 0 5 2 live"; done
    echo "END 32766"
)
check "the longest file: texts" lists 0 <(echo "PLACE DEPTH STATE TEXT" && echo "END 32766") --text "$work/long.dgn"
echo >> "$work/long.dgn"
check "a byte more" lists 1 <(echo "REFUSED 1 0") "$work/long.dgn"
check "a byte more: texts" lists 1 <(echo "REFUSED 1 0") --text "$work/long.dgn"

# as many texts of 255 characters as there can be, each line as long as a line can be; in one of them other characters
text() { printf '\1\21\234\0' && printf '\0%.0s' {1..54} && printf '\377\0' && printf "\\$1%.0s" {1..255} && printf '\0'; }
{ for ((k = 0; k < 207; k++)); do if [ $k -eq 100 ]; then text 101; else text 1; fi; done && printf '\377\377'; } > "$work/texts.dgn"
check "the longest texts" lists 0 <(
    echo "PLACE DEPTH STATE TEXT"
    for ((k = 0; k < 207; k++)); do
        printf '%d 0 live ' $((158 * k))
        if [ $k -eq 100 ]; then printf 'A%.0s' {1..255}; else printf '\\x01%.0s' {1..255}; fi
        echo
    done
    echo "END 32706"
) --text "$work/texts.dgn"

# the first run, in a copy where nothing is built, with a stand-in for rt: one that fails, then one that builds
mkdir -p "$work/copy/crates"/{celllist,textlist,dgn_c} "$work/copy/samples" "$work/bin"
for name in celllist textlist; do cp crates/$name/stdin crates/$name/stdout "$work/copy/crates/$name"; done
cp list archive crates.txt "$work/copy"
cp samples/seals.cel samples/plate.dgn "$work/copy/samples"
first() { PATH=$work/bin:$PATH "$work/copy/list" "$@" > "$work/out" 2> "$work/err"; }
printf '#!/bin/sh\necho "rt: words NOT PROVED (exit 1, 1 s)" >&2\nexit 1\n' > "$work/bin/rt"
chmod +x "$work/bin/rt"
first
check "a build that fails: status" test $? -eq 2
check "a build that fails: output" test ! -s "$work/out"
check "a build that fails: what rt says" said "NOT PROVED"
# a program that is built and writes something else than what is stored
printf '#!/bin/sh\nmkdir -p out\nprintf "#!/bin/sh\\n" > out/celllist\nchmod +x out/celllist\necho END 0\n' > "$work/bin/rt"
first
check "another output than the stored one: status" test $? -eq 2
check "another output than the stored one: output" test ! -s "$work/out"
check "another output than the stored one: why" said "celllist does not write what crates/celllist/stdout has"
printf '#!/bin/sh\necho "rt: words NOT PROVED (exit 1, 1 s)" >&2\nexit 1\n' > "$work/bin/rt"
PATH=$work/bin:$PATH "$work/copy/archive" > "$work/out" 2> "$work/err"
check "an archive that is not proved: status" test $? -eq 2
check "an archive that is not proved: where it is said why" said "target/archive.log"
{
    printf '#!/bin/sh\necho "rt: chose --jobs 2 for words" >&2\necho "fn words::word: proved" >&2\n[ "$1" = run ] || exit 1\n'
    printf 'name=$(basename "$PWD")\nmkdir -p out\ncp "%s/$name/out/$name" out/$name\nout/$name\n' "$top/crates"
} > "$work/bin/rt"
# first_run NAME OUT ARGUMENT..: list with these arguments builds the program NAME, once, and prints what OUT has
first_run() {
    local name=$1 out=$2
    shift 2
    first "$@"
    check "the first run of $name: status" test $? -eq 0
    check "the first run of $name: output" cmp "$work/out" "$out"
    check "the first run of $name: what is being proved" cmp "$work/err" <(
        echo "list: proving $name and the crates it depends on (some minutes the first time)"
        echo "rt: chose --jobs 2 for words"
    )
    first "$@"
    check "the second run of $name builds again" quiet
}
first_run celllist samples/seals.out
first_run textlist samples/plate.text --text
touch "$work/copy/crates.txt"
first
check "newer sources are not built" said "rt: chose --jobs 2 for words"
# what rt leaves beside the sources is none of them
touch "$work/copy/crates/celllist/out/other" "$work/copy/crates/celllist"
first
check "rt's own files count as sources" quiet

# a listing that is not whole, by a stand-in for celllist: nothing, no last line, a last line that is cut
unwhole() {
    printf '#!/bin/sh\nprintf "%s"\n' "$1" > "$work/copy/crates/celllist/out/celllist"
    first
    [ $? -eq 3 ] && [ ! -s "$work/out" ] && said "cannot be read"
}
heading='PLACE DEPTH TYPE WORDS STATE NAME\n'
for listing in "" "$heading" "${heading}0 0 3 26 live\n" "${heading}0 0 3 26 live\nEND 26" "${heading}END \n" "REFUSED 3\n"; do
    check "a listing that is not whole: $listing" unwhole "$listing"
done

# a celllist that cannot be run, by stand-ins: an interpreter that is not there, a signal before the end, a folder
unrun() { first; [ $? -eq 2 ] && [ ! -s "$work/out" ] && said "cannot be run"; }
for stand_in in '#!/none/sh\n' '#!/bin/sh\necho END 0\nkill -9 $$\n'; do
    printf "$stand_in" > "$work/copy/crates/celllist/out/celllist"
    check "a celllist that cannot be run: $stand_in" unrun
done
rm "$work/copy/crates/celllist/out/celllist"
mkdir "$work/copy/crates/celllist/out/celllist"
check "a celllist that is a folder" unrun

echo "$passed passed, $failed failed"
[ "$failed" -eq 0 ]
