# Sourced by run and trees, which try a program on files beside the second program. They set before: what program.sh asks for; asked, the words before a
# file by which the second program takes it for what this one does.
. "$(dirname "${BASH_SOURCE[0]}")/program.sh"

cargo build --offline --locked --quiet --release --manifest-path "$tests/Cargo.toml" --target-dir "$target" --package report
second=$target/release/report

# prints FILE EXPECTED: the program on one file.
lines=0
prints() {
    runs "$1"
    "$second" "${asked[@]}" "$1" >"$out/second"
    same "$out/got" "$2" || fail "$1: not what $2 says, see $out/got"
    same "$out/got" "$out/second" || fail "$1: not what the second program prints, see $out/got and $out/second"
    lines=$((lines + $(wc -l <"$out/got")))
}

# prints_anywhere FILE EXPECTED: the same with spaces in the name, and without a folder before it.
prints_anywhere() {
    cp "$1" "$out/a name with spaces"
    prints "$out/a name with spaces" "$2"
    cd "$out"
    prints "a name with spaces" "$2"
    cd "$OLDPWD"
}

# refuses FILE EXPECTED EDIT...: the comparison of this file's output fails when it is edited so.
refuses() {
    runs "$1"
    shift
    edited "$@"
}

# complains_of_files FILE: what it says where there is no file to read, and where not one is named.
complains_of_files() {
    complains_without_file "$1"
    complains "usage: $name FILE"
    complains "usage: $name FILE" "$1" "$1"
    complains "usage: $name FILE" "$1" ""
}
