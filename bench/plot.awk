# plot.awk: draws the times of plot.data as an SVG on standard output: for each name a track of the proved gateway and one of the plain
# one, a ring before and a dot after, on a log scale.
#
#     awk -f plot.awk plot.data > ../docs/performance.svg

BEGIN {
    left = 150; right = 690; top = 64; track = 26; gap = 22
    colour["proved"] = "#1b6ca8"; colour["plain"] = "#a8571b"
    word["proved"] = "proved"; word["plain"] = "plain C"
    least = 1; most = 1
}

function log10(x) { return log(x) / log(10) }

function is_number(text) { return text ~ /^[0-9]+(\.[0-9]+)?$/ }

function at(value) { return left + (right - left) * (log10(value) - low) / (high - low) }

function text_at(x, y, anchor, style, words) {
    printf "<text x=\"%.1f\" y=\"%.1f\" text-anchor=\"%s\"%s>%s</text>\n", x, y, anchor, style, words
}

# A value's mark and its number, on the side away from the other value.
function mark(value, other, y, fill, stroke,    side) {
    side = is_number(other) && other + 0 > value + 0 ? -1 : 1
    printf "<circle cx=\"%.1f\" cy=\"%.1f\" r=\"5\" fill=\"%s\" stroke=\"%s\" stroke-width=\"2\"/>\n", at(value), y, fill, stroke
    text_at(at(value) + 10 * side, y + 4, side < 0 ? "end" : "start", "", value)
}

function draw_track(i, y,    c) {
    c = colour[gateway[i]]
    text_at(left - 12, y + 4, "end", " fill=\"" c "\"", word[gateway[i]])
    if (is_number(before[i]) && is_number(after[i])) {
        printf "<line x1=\"%.1f\" y1=\"%.1f\" x2=\"%.1f\" y2=\"%.1f\" stroke=\"%s\"/>\n", at(before[i]), y, at(after[i]), y, c
    }
    if (is_number(before[i])) mark(before[i], after[i], y, "#ffffff", c)
    if (is_number(after[i])) mark(after[i], before[i], y, c, c)
}

function draw_scale(bottom,    power, x) {
    for (power = low; power <= high; power++) {
        x = at(10 ^ power)
        printf "<line x1=\"%.1f\" y1=\"%d\" x2=\"%.1f\" y2=\"%d\" stroke=\"#dddddd\"/>\n", x, top - 10, x, bottom
        text_at(x, bottom + 18, "middle", "", 10 ^ power " ns")
    }
}

function draw_legend() {
    text_at(16, 26, "start", " font-size=\"16\" font-weight=\"bold\"", "ns a byte, before and after the block call (log scale)")
    printf "<circle cx=\"530\" cy=\"21\" r=\"5\" fill=\"#ffffff\" stroke=\"#444444\" stroke-width=\"2\"/>\n"
    text_at(542, 26, "start", "", "before")
    printf "<circle cx=\"610\" cy=\"21\" r=\"5\" fill=\"#444444\" stroke=\"#444444\" stroke-width=\"2\"/>\n"
    text_at(622, 26, "start", "", "after")
}

function take(value) {
    if (!is_number(value)) return
    if (value + 0 < least) least = value + 0
    if (value + 0 > most) most = value + 0
}

/^#/ || NF == 0 { next }

NF != 4 || !($2 in colour) {
    print "plot.awk: line " FNR " is not a name, proved or plain, and two values" > "/dev/stderr"
    failed = 1
    exit 1
}

{
    count += 1
    name[count] = $1; gateway[count] = $2; before[count] = $3; after[count] = $4
    take($3)
    take($4)
}

END {
    if (failed) exit 1
    low = int(log10(least)) - (log10(least) < int(log10(least)))
    high = int(log10(most)) + (log10(most) > int(log10(most)))
    y = top
    for (i = 1; i <= count; i++) {
        if (i > 1 && name[i] != name[i - 1]) y += gap
        place[i] = y
        y += track
    }
    bottom = y
    printf "<svg xmlns=\"http://www.w3.org/2000/svg\" viewBox=\"0 0 760 %d\" width=\"760\" height=\"%d\" ", bottom + 34, bottom + 34
    print "font-family=\"sans-serif\" font-size=\"13\" fill=\"#222222\">"
    printf "<rect width=\"760\" height=\"%d\" fill=\"#ffffff\"/>\n", bottom + 34
    draw_legend()
    draw_scale(bottom)
    for (i = 1; i <= count; i++) {
        if (i == 1 || name[i] != name[i - 1]) text_at(16, place[i] + track / 2 + 4, "start", " font-weight=\"bold\"", name[i])
        draw_track(i, place[i])
    }
    print "</svg>"
}
