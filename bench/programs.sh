# For run and compare, which set here and root and stand in root. Builds the
# plain program as programs of the toolchain are built, and leaves the two
# commands in proved and plain, as words divided by blanks.

fail() { echo "${0##*/}: $*" >&2; exit 2; }

work=target/bench
mkdir -p "$work"

rt=$(command -v rt) || fail "no rt on the path"
kit=${RATTLE_HOME:-$(dirname "$(dirname "$(readlink -f "$rt")")")}
tools=$kit/toolchain
[ "$(uname -m)" = x86_64 ] || fail "built programs are for x86-64, and this machine is $(uname -m)"

{
    "$tools/bin/clang" --target=x86_64-unknown-linux-gnu -O3 -ffreestanding -fPIE \
        -c "$here/plain.c" -o "$work/plain.o" &&
    "$kit/bin/rattle-link" --target x86_64-unknown-linux-gnu --toolchain "$tools" \
        -o "$work/plain" "$work/plain.o"
} >"$work/build.log" 2>&1 || fail "plain.c was not built, see $work/build.log"
plain=$work/plain

proved=${REPLAY:-target/bin/replay}
[ -n "${REPLAY:-}" ] || [ -x target/bin/replay ] ||
    fail "no target/bin/replay: build it with './replay </dev/null', or name a command in REPLAY"

# Writes the stream of a kind and size; what it should give is left in $work/counts.
generate() { # KIND MEGABYTES FILE
    python3 "$here/generate.py" "$1" "$2" >"$3" 2>"$work/counts" || fail "no stream $1 of $2 MB"
}

# Holds what a program printed on a generated stream to what the generator counted.
accepted_whole() { # FILE
    grep -qx 'stop 0' "$1" || return 1
    while read -r line; do grep -qx "$line" "$1" || return 1; done <"$work/counts"
}
