# Sourced by the scripts that try a program on files: common.sh beside it, and ../plans/run. They set before: name, the program's name; named, the path of
# it that their variable gives, or nothing.
here=$(cd "$(dirname "${BASH_SOURCE[-1]}")" && pwd)
tests=$(dirname "$here")
root=$(dirname "$tests")
target=${TESTS_TARGET:-$tests/target}
mkdir -p "$target"
target=$(cd "$target" && pwd)
out=$target/$name
rm -rf "$out"
mkdir -p "$out/bytes"

fail() {
    echo "$name: $*" >&2
    exit 1
}

program=${named:-$root/target/bin/$name}
if [ ! -x "$program" ] || [ -d "$program" ]; then
    fail "no program: $program"
fi
program=$(cd "$(dirname "$program")" && pwd)/$(basename "$program")

# same GOT EXPECTED: whether two outputs are equal in every byte.
same() { cmp -s "$1" "$2"; }

# runs ARGUMENTS...: the program's output in $out/got; it ends well and complains of nothing.
runs() {
    local ended=0
    "$program" "$@" >"$out/got" 2>"$out/errors" </dev/null || ended=$?
    [ "$ended" -eq 0 ] || fail "$*: ended with $ended"
    [ ! -s "$out/errors" ] || fail "$*: wrote on standard error: $(head -1 "$out/errors")"
}

# edited EXPECTED EDIT...: the comparison of the last output fails when it is edited so, and without its last line end.
refused=0
edited() {
    local edit expected=$1
    shift
    for edit in "$@"; do
        sed "$edit" "$out/got" >"$out/edited"
        ! same "$out/edited" "$expected" || fail "an edited output was passed: $edit"
        refused=$((refused + 1))
    done
    head -c -1 "$out/got" >"$out/edited"
    ! same "$out/edited" "$expected" || fail "an output without its last line end was passed"
    refused=$((refused + 1))
}

# complains LINE ARGUMENTS...: nothing on standard output, this line alone on standard error; if it ends in a space, one that begins so.
failures=0
as=()
complains() {
    local line=$1 got
    shift
    "${as[@]}" "$program" "$@" >"$out/got" 2>"$out/errors" </dev/null || true
    [ ! -s "$out/got" ] || fail "printed something for: $*"
    [ "$(wc -l <"$out/errors")" -eq 1 ] || fail "not one line on standard error for: $*"
    got=$(cat "$out/errors")
    [ "$got" = "$line" ] || [[ $line == *' ' && $got == "$line"?* ]] || fail "for $*: $got"
    failures=$((failures + 1))
}

# complains_without_file FILE: what it says where there is no file to read, the arguments before and after it as set. FILE is one that it reads.
before=() after=()
complains_without_file() {
    local room
    complains "$name: $out/nothing: No such file or directory" "${before[@]}" "$out/nothing" "${after[@]}"
    complains "$name: $out/bytes: " "${before[@]}" "$out/bytes" "${after[@]}"
    complains "$name: $1/one: " "${before[@]}" "$1/one" "${after[@]}"
    complains "$name: : " "${before[@]}" "" "${after[@]}"
    # A file that may not be read. Root may read any, so there the program runs as the user nobody, from a folder open to all.
    room=$(mktemp -d)
    trap 'rm -rf "$room"' EXIT
    chmod 755 "$room"
    cp "$program" "$room/program"
    cp "$1" "$room/locked"
    chmod 755 "$room/program"
    chmod 000 "$room/locked"
    if [ "$(id -u)" -eq 0 ]; then
        as=(setpriv --reuid=65534 --regid=65534 --clear-groups)
    fi
    program=$room/program complains "$name: $room/locked: Permission denied" "${before[@]}" "$room/locked" "${after[@]}"
    rm -rf "$room"
    trap - EXIT
    as=()
}
