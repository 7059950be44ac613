# header.sh HEADER CRATES: compares the header with the Rattle sources of its calls.
#
# Nothing else checks that C and Rattle mean the same structs. Both sides are written as one list: a line for each field of each
# struct (its place, name and type), for each parameter of each function, and for each outcome of a call. The lists must be alike.
# Status 1, and the differing lines, where they are not.
set -eu
header=$1
crates=$2
lists=$(mktemp -d)
trap 'rm -rf "$lists"' EXIT

# The C side. The sizes of arrays are names of enum constants.
awk '
function value(size) { return size in constant ? constant[size] : size }
{ gsub(/\/\*.*\*\//, ""); sub(/[ \t]+$/, "") }
/^\/\*/ { comment = 1 }
comment { if (/\*\//) comment = 0; next }
/THA_[A-Z_]+ = [0-9]+/ {
    rest = $0
    while (match(rest, /THA_[A-Z_]+ = [0-9]+/)) {
        split(substr(rest, RSTART, RLENGTH), part, " = ")
        constant[part[1]] = part[2]
        rest = substr(rest, RSTART + RLENGTH)
    }
    next
}
/^typedef struct {/ { inside = 1; count = 0; next }
inside && /^}/ {
    name = $2; sub(/;/, "", name)
    for (i = 1; i <= count; i++) print "struct " name " " i " " field[i]
    inside = 0
    next
}
inside && /;/ {
    type = $1; name = $2; sub(/;/, "", name)
    if (match(name, /\[.*\]/)) {
        size = substr(name, RSTART + 1, RLENGTH - 2)
        name = substr(name, 1, RSTART - 1)
        type = type "[" value(size) "]"
    }
    count += 1
    field[count] = name " " type
    next
}
/^[a-z_]+ tha_[a-z_]+\(.*\);/ {
    result = $1; name = $2; sub(/\(.*/, "", name)
    rest = $0; sub(/^[^(]*\(/, "", rest); sub(/\);.*/, "", rest)
    total = split(rest, parameter, /, */)
    print "call " name " 0 " result
    for (i = 1; i <= total; i++) {
        type = parameter[i]; sub(/[a-z_]+$/, "", type)
        word = substr(parameter[i], length(type) + 1)
        gsub(/ /, "", type); sub(/^const/, "const ", type)
        print "call " name " " i " " word " " type
    }
}
END {
    split("NOTHING REFUSED QUEUED REPLIED FAILED ADDED WRITTEN READ", outcomes, " ")
    for (i in outcomes) print "outcome " outcomes[i] " " constant["THA_" outcomes[i]]
}
' "$header" | sort > "$lists/header"

# The Rattle side, in the words of C: its types, and a slice as a pointer and a length. The sizes of arrays may be names, each of one
# value in all crates.
sizes=$(cat "$crates"/*/src/*.rt | sed -nE 's/^(pub(\(crate\))? )?const ([A-Z_]+): usize = ([0-9]+);.*/\3 \4/p' | tr '\n' ' ')
cat "$crates"/*/src/*.rt | awk -v sizes="$sizes" '
BEGIN {
    split(sizes, pair, " ")
    for (i = 1; i in pair; i += 2) size_of[pair[i]] = pair[i + 1]
    split("", pair)
    split("u8 uint8_t u16 uint16_t u32 uint32_t usize size_t bool bool Receiver tha_receiver Receivers tha_receivers Row tha_row " \
          "Table tha_table Field tha_field LineField tha_line_field Update tha_update Queue tha_queue Date tha_date " \
          "Properties tha_properties Gateway tha_gateway CallAnswer tha_answer CallResult tha_result HeadResult tha_head_answer " \
          "DeviceAnswer tha_heard Fields tha_fields Ticked tha_ticked Counts tha_counts Blocked tha_blocked", pair, " ")
    for (i = 1; i in pair; i += 2) in_c[pair[i]] = pair[i + 1]
    # `type` is a word of Rattle.
    renamed["tha_write ptype"] = "type"
    renamed["tha_write bytes"] = "data"
    # A length is called so, but where a call has two.
    length_of["data"] = "data_length"
    length_of["area"] = "area_length"
}
function c_type(type) {
    if (type ~ /^\[.*; *[0-9A-Z_]+\]$/) {
        size = type; sub(/^.*; */, "", size); sub(/\]/, "", size)
        if (size in size_of) size = size_of[size]
        sub(/^\[/, "", type); sub(/;.*/, "", type)
        return c_type(type) "[" size "]"
    }
    return type in in_c ? in_c[type] : type
}
function one_parameter(call, text,    name, type, slice) {
    name = text; sub(/:.*/, "", name)
    type = text; sub(/^[^:]*: */, "", type)
    if ((call " " name) in renamed) name = renamed[call " " name]
    slice = type == "&mut [u8]" ? "uint8_t*" : type == "&[u8]" ? "const uint8_t*" : ""
    place += 1
    print "call " call " " place " " name " " (slice == "" ? c_type(type) : slice)
    if (slice != "") {
        place += 1
        print "call " call " " place " " (name in length_of ? length_of[name] : "length") " size_t"
    }
}
function whole_call(text,    call, result, total, parameter, i) {
    call = text; sub(/^.*fn /, "", call); sub(/\(.*/, "", call)
    result = text; sub(/^.*\) *-> */, "", result); sub(/[^A-Za-z0-9].*/, "", result)
    sub(/^[^(]*\( */, "", text); sub(/,? *\) *->.*/, "", text)
    print "call " call " 0 " c_type(result)
    place = 0
    total = split(text, parameter, /, */)
    for (i = 1; i <= total; i++) one_parameter(call, parameter[i])
}
/^ *\/\// { next }
/^#\[repr\(C\)\]/ { repr = 1; next }
# One that has no name in C stays inside the archive; where it does not, a field or a call has its name.
repr && /struct/ {
    struct = $0; sub(/^.*struct /, "", struct); sub(/ .*/, "", struct)
    inside = struct in in_c; repr = 0; count = 0
    next
}
inside && /^}/ { inside = 0; next }
inside && /:/ {
    sub(/^ *(pub )?/, ""); sub(/,$/, "")
    name = $0; sub(/:.*/, "", name)
    type = $0; sub(/^[^:]*: */, "", type)
    count += 1
    print "struct " c_type(struct) " " count " " name " " c_type(type)
    next
}
/^#\[unsafe\(no_mangle\)\]/ { named = 1; next }
/^pub extern "C" fn tha_/ { call_text = ""; calling = named }
{ named = 0 }
calling {
    call_text = call_text " " $0
    if (call_text ~ /\) *-> *[A-Za-z]/) { whole_call(call_text); calling = 0 }
}
/^const [A-Z]+: u8 = [0-9]+;/ && $2 ~ /^(NOTHING|REFUSED|QUEUED|REPLIED|FAILED|ADDED|WRITTEN|READ):$/ {
    name = $2; sub(/:/, "", name); number = $5; sub(/;/, "", number)
    print "outcome " name " " number
}
' | sort > "$lists/source"

if ! diff "$lists/header" "$lists/source"; then
    echo "header.sh: the header (<) and the sources (>) differ" >&2
    exit 1
fi
structs=$(grep ^struct "$lists/header" | cut -d' ' -f2 | sort -u | wc -l)
calls=$(grep -c '^call [a-z_]* 0 ' "$lists/header" || true)
if [ "$structs" -ne 19 ] || [ "$calls" -ne 13 ]; then
    echo "header.sh: $structs structs and $calls calls were read, 19 and 13 are there" >&2
    exit 1
fi
echo "header.sh: $structs structs and $calls calls are alike, $(wc -l < "$lists/header") lines"
