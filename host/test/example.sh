# example.sh PROGRAM: example.c, given 000's Request of the network error, gives its reply, and README.md shows the same file.
set -eu
reply=$(printf '\312\007\006\001\007\001\000\000\000\000\026\065' | "$1" | od -An -tx1)
wanted=" ca 07 06 04 07 01 00 00 00 00 19 35"
if [ "$reply" != "$wanted" ]; then
    echo "example.sh: the example replies '$reply', 000 has '$wanted'" >&2
    exit 1
fi

# The first block of C in README.md.
shown=$(mktemp)
trap 'rm -f "$shown"' EXIT
awk '/^```c$/ && !done { inside = 1; next } /^```$/ && inside { inside = 0; done = 1 } inside' ../README.md > "$shown"
if ! diff "$shown" example.c; then
    echo "example.sh: README.md shows another program than example.c" >&2
    exit 1
fi
echo "example.sh: the example gives 000's reply, README.md shows it"
