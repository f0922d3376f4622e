#!/usr/bin/env bash
# steps.sh [--all]: the steps of the command dgn, by which an edit reaches the disk: cut at every call that changes the folder, power
# lost at every moment, calls that fail, a full disk, damaged logs, changes by other programs, each sync left out in turn, and
# 10,000 random commands. docs/COMMAND.md says what is tried. As root all is done on a tmpfs of its own, with a full disk,
# other users and a read-only disk; otherwise in a temporary folder in memory, without these. With --all also what takes longer. The last
# line is "N passed, M failed".
set -u
cd "$(dirname "$0")/.." || exit 1
work=$(mktemp -d) || exit 1
files=$(mktemp -d -p /dev/shm 2> /dev/null || mktemp -d) || exit 1
trap 'rm -rf "$work" "$files"' EXIT
chmod 755 "$work" "$files"
fail() {
    cat "$@"
    echo "0 passed, 1 failed"
    exit 1
}
./archive > "$work/log" 2>&1 || fail "$work/log" target/archive.log
{
    cargo build --release --offline --quiet --manifest-path command/Cargo.toml --target-dir target/command &&
        cargo build --release --offline --quiet --manifest-path tests/steps/Cargo.toml
} > "$work/log" 2>&1 || fail "$work/log"
[ ! -s "$work/log" ] || fail "$work/log"
cp target/command/release/dgn tests/steps/target/release/steps "$work"
began=$SECONDS
if unshare -m true 2> /dev/null; then
    unshare -m bash -c 'mount -t tmpfs none "$1" && exec "$2/steps" "$1" "$2/dgn" "${@:3}"' bash "$files" "$work" "$@"
else
    "$work/steps" "$files" "$work/dgn" "$@"
fi > "$work/out"
status=$?
sed '$d' "$work/out"
echo "steps: $((SECONDS - began)) seconds"
tail -n 1 "$work/out"
exit $status
