# instructions.sh ONE LISTING PLAIN_LISTING TUNED_LISTING FOLDER: instructions a unit, counted by valgrind's callgrind over one pass of
# each timed line, proved and plain. They don't depend on what else the machine does. The listing programs are counted whole, on 1 MB.
set -eu
one=$1
listing=$2
plain_listing=$3
tuned_listing=$4
folder=$5
bytes=1048576
input=$folder/counted.bin
log=$folder/counted.log
trap 'rm -f "$input" "$log"' EXIT

# The instructions that a command takes, in the function whose name is the first argument, or in all where that is empty.
count() {
    within=${1:+--toggle-collect=$1}
    shift
    if ! valgrind --tool=callgrind --callgrind-out-file=/dev/null --log-file="$log" $within "$@" > /dev/null; then
        cat "$log" >&2
        exit 1
    fi
    sed -n 's/.* Collected : \([0-9]*\).*/\1/p' "$log"
}

# A row: name, unit, how many units, instructions proved and plain.
row() {
    awk -v name="$1" -v unit="$2" -v units="$3" -v proved="$4" -v plain="$5" 'BEGIN {
        printf "%-29s %-8s %10.1f %10.1f %7.2f\n", name, unit, proved / units, plain / units, proved / plain
    }'
}

printf '%-29s %-8s %10s %10s %7s\n' line unit proved plain ratio
last=
"$one" | while IFS="$(printf '\t')" read -r key unit units name; do
    if [ "$key" != "$last" ]; then
        proved=$(count "proved_$key" "$one" "$key" proved)
        plain=$(count "plain_$key" "$one" "$key" plain)
        last=$key
    fi
    row "$name" "$unit" "$units" "$proved" "$plain"
done
"$one" listing "$input" "$bytes"
proved=$(count "" "$listing" < "$input")
plain=$(count "" "$plain_listing" < "$input")
row "listing program, 1 MB" byte "$bytes" "$proved" "$plain"
tuned=$(count "" "$tuned_listing" < "$input")
row "listing program, C tuned" byte "$bytes" "$proved" "$tuned"
