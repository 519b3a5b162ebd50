# Draws crates.txt as an SVG: floors as bands, the lowest at the bottom, each with as many rows as its crates stand on one another.
#
# Every arrow goes down, and one that follows from others is left out. Where an arrow passes a row it has a knot there, a place of its own;
# arrows to the same crate share their knots and so run together. The rows are ordered for few crossings, then moved sideways towards what
# they are joined with, and then the long lines are made upright.
#
# Nothing here hangs on the order in which awk goes through an array, so that every awk draws the same.

BEGIN {
    KIT = "arrayvec memchr"
    WIDTH = 1500; LABELS = 210; MARGIN = 24; HEAD = 58; FOOT = 66
    BOX = 38; BETWEEN = 32; BAND = 20
    # one letter of a crate's name, 16 px high
    LETTER = 9.64
    SHADES = split("#5b6b7f #2f7d78 #4a7d3a #8a7a1f #b0702a #a8484e #8a4a8c #5a56a8 #2f6ea3 #6f6f6f", ink, " ")
    split("#f5f7f9 #eef8f6 #f2f8ee #faf8eb #fdf5ec #fcf2f2 #f9f2f9 #f3f2fb #eef5fb #f7f7f7", paper, " ")
}

# crates.txt

/^[ \t]*$/ {
    blank = 1
    next
}

# A comment after a blank line begins a floor.
/^#/ {
    if (blank) {
        title[++floors] = substr($0, 3)
        floor_line[floors] = NR
    }
    blank = 0
    next
}

{
    blank = 0
    if (!match($0, /^[a-z_0-9]+( staticlib)?:/)) refuse(NR, "not 'NAME: the crates that it uses'")
    crate = substr($0, 1, RLENGTH - 1)
    sub(/ .*/, "", crate)
    if (crate in number) refuse(NR, crate " is listed twice")
    if (!floors) refuse(NR, crate " stands on no floor")
    number[crate] = ++crates
    name[crates] = crate
    floor[crates] = floors
    line[crates] = NR
    stands_on[floors] = 1
    listed[crates] = substr($0, RLENGTH + 1)
}

END {
    if (!crates) refuse(NR, "no crate")
    for (i = 1; i <= floors; i++) if (!(i in stands_on)) refuse(floor_line[i], "no crate on the floor '" title[i] "'")
    for (i = 1; i <= crates; i++) read_uses(i)
    if (refused) exit 1
    for (i = 1; i <= crates; i++) leave_out_what_follows(i)
    lay_rows()
    tie_knots()
    order_rows()
    move_rows()
    straighten()
    centre()
    draw()
}

function refuse(where, why) {
    printf "draw-crates: %s:%d: %s\n", FILENAME, where, why >"/dev/stderr"
    refused = 1
}

# What crate i uses, and all that it reaches by that; libraries of the kit are kept apart.
function read_uses(i,    words, n, k, j, use) {
    n = split(listed[i], words, " ")
    for (k = 1; k <= n; k++) {
        use = words[k]
        if (index(" " KIT " ", " " use " ")) library[i] = library[i] " " use
        else if (!(use in number)) refuse(line[i], name[i] " uses " use ", neither a crate nor of the kit (" KIT ")")
        else if (number[use] >= i) refuse(line[i], name[i] " uses " use ", which is not further up")
        else uses[i, ++used[i]] = number[use]
    }
    for (k = 1; k <= used[i]; k++) {
        reaches[i, uses[i, k]] = 1
        for (j = 1; j < uses[i, k]; j++) if ((uses[i, k], j) in reaches) reaches[i, j] = 1
    }
    all += used[i]
}

# The arrows of crate i: to what it uses and does not reach by another that it uses.
function leave_out_what_follows(i,    k, j, follows) {
    for (k = 1; k <= used[i]; k++) {
        follows = 0
        for (j = 1; j <= used[i]; j++) if ((uses[i, j], uses[i, k]) in reaches) follows = 1
        if (!follows) arrow[i, ++arrows[i]] = uses[i, k]
    }
    drawn += arrows[i]
}

# Rows, counted from the bottom up: on its floor a crate stands above those that it uses.
function lay_rows(    i, k, j, f) {
    for (i = 1; i <= crates; i++) {
        if (floor[i] != f) {
            f = floor[i]
            lowest[f] = rows + 1
        }
        row[i] = lowest[f]
        for (k = 1; k <= arrows[i]; k++) {
            j = arrow[i, k]
            if (floor[j] == f && row[j] >= row[i]) row[i] = row[j] + 1
        }
        if (row[i] > rows) rows = row[i]
        highest[f] = rows
        width[i] = LETTER * length(name[i]) + 22
        put(i)
    }
}

# Puts point p at the end of its row.
function put(p) {
    slot[row[p], ++slots[row[p]]] = p
    place[p] = slots[row[p]]
}

# Points are the crates, by their numbers, and after them the knots.
function tie_knots(    i, k) {
    points = crates
    for (i = 1; i <= crates; i++) for (k = 1; k <= arrows[i]; k++) join(i, on_the_way(arrow[i, k], row[i] - 1))
}

# Where arrows to crate j pass row r: at the crate itself, or at a knot, made with those below it.
function on_the_way(j, r,    p) {
    if (r == row[j]) return j
    if ((j, r) in knot) return knot[j, r]
    p = knot[j, r] = ++points
    row[p] = r
    goal[p] = j
    width[p] = 8
    put(p)
    join(p, on_the_way(j, r - 1))
    return p
}

function join(upper, lower) {
    below[upper, ++belows[upper]] = lower
    above[lower, ++aboves[lower]] = upper
}

# Order: swept up and down, by the mean place of what a point is joined with; of all that were tried, the order with fewest crossings.

function order_rows(    sweep, r, least, now) {
    least = crossings()
    keep()
    for (sweep = 1; sweep <= 60; sweep++) {
        if (sweep % 2) for (r = 2; r <= rows; r++) sort_row(r, 1, sweep % 4 == 3)
        else for (r = rows - 1; r >= 1; r--) sort_row(r, sweep % 4 == 0, 1)
        swap_neighbours()
        now = crossings()
        if (now < least) {
            least = now
            keep()
        }
    }
    restore()
}

# Sorts a row by what is joined with it below, above or both.
function sort_row(r, down, up,    k, j, p, key) {
    for (k = 1; k <= slots[r]; k++) key[slot[r, k]] = mean_place(slot[r, k], down, up)
    for (k = 2; k <= slots[r]; k++) {
        p = slot[r, k]
        for (j = k - 1; j >= 1 && key[slot[r, j]] > key[p]; j--) slot[r, j + 1] = slot[r, j]
        slot[r, j + 1] = p
    }
    for (k = 1; k <= slots[r]; k++) place[slot[r, k]] = k
}

function mean_place(p, down, up,    k, sum, n) {
    if (down) for (k = 1; k <= belows[p]; k++) { sum += from_middle(below[p, k]); n++ }
    if (up) for (k = 1; k <= aboves[p]; k++) { sum += from_middle(above[p, k]); n++ }
    return n ? sum / n : from_middle(p)
}

function from_middle(p) {
    return place[p] - (slots[row[p]] + 1) / 2
}

function swap_neighbours(    turn, better, r, k, p, q) {
    better = 1
    for (turn = 1; better && turn <= 20; turn++) {
        better = 0
        for (r = 1; r <= rows; r++) for (k = 1; k < slots[r]; k++) {
            p = slot[r, k]
            q = slot[r, k + 1]
            if (crossed_below(p, q) + crossed_above(p, q) <= crossed_below(q, p) + crossed_above(q, p)) continue
            slot[r, k] = q; place[q] = k
            slot[r, k + 1] = p; place[p] = k + 1
            better = 1
        }
    }
}

# The crossings of lines from p with lines from q if p stands left of q.
function crossed_below(p, q,    k, j, n) {
    for (k = 1; k <= belows[p]; k++) for (j = 1; j <= belows[q]; j++) n += place[below[p, k]] > place[below[q, j]]
    return n + 0
}

function crossed_above(p, q,    k, j, n) {
    for (k = 1; k <= aboves[p]; k++) for (j = 1; j <= aboves[q]; j++) n += place[above[p, k]] > place[above[q, j]]
    return n + 0
}

function crossings(    r, k, j, n) {
    for (r = 2; r <= rows; r++)
        for (k = 1; k < slots[r]; k++) for (j = k + 1; j <= slots[r]; j++) n += crossed_below(slot[r, k], slot[r, j])
    return n
}

function keep(    p) {
    for (p = 1; p <= points; p++) kept[p] = place[p]
}

function restore(    p) {
    for (p = 1; p <= points; p++) {
        place[p] = kept[p]
        slot[row[p], place[p]] = p
    }
}

# Places from left to right.

function move_rows(    turn, r) {
    for (r = 1; r <= rows; r++) move_row(r, 0, 0)
    for (turn = 1; turn <= 100; turn++) {
        for (r = 2; r <= rows; r++) move_row(r, 1, turn > 50)
        for (r = rows - 1; r >= 1; r--) move_row(r, turn > 50, 1)
    }
}

# Moves a row as near as order and distances allow, by the least squares, to where its points want to be. Points that push one another are
# a block and move as one.
function move_row(r, down, up,    k, p, b, blocks, first, sum, weight, from_first, last, at) {
    for (k = 1; k <= slots[r]; k++) {
        p = slot[r, k]
        last += k > 1 ? distance(slot[r, k - 1], p) : 0
        from_first[k] = last
        first[++blocks] = k
        weight[blocks] = p > crates ? 2 : 1
        sum[blocks] = weight[blocks] * (wanted(p, down, up) - last)
        while (blocks > 1 && sum[blocks - 1] / weight[blocks - 1] > sum[blocks] / weight[blocks]) {
            blocks--
            sum[blocks] += sum[blocks + 1]
            weight[blocks] += weight[blocks + 1]
        }
    }
    first[blocks + 1] = slots[r] + 1
    for (b = 1; b <= blocks; b++) {
        at = within(sum[b] / weight[b], LABELS + width[slot[r, 1]] / 2, WIDTH - MARGIN - width[p] / 2 - last)
        for (k = first[b]; k < first[b + 1]; k++) x[slot[r, k]] = at + from_first[k]
    }
}

# Where point p wants to be: lines to knots pull more, so that they come out straight.
function wanted(p, down, up,    k, q, sum, n, pull) {
    if (down) for (k = 1; k <= belows[p]; k++) { q = below[p, k]; pull = strength(p, q); sum += pull * x[q]; n += pull }
    if (up) for (k = 1; k <= aboves[p]; k++) { q = above[p, k]; pull = strength(p, q); sum += pull * x[q]; n += pull }
    if (n) return sum / n
    return p in x ? x[p] : (LABELS + WIDTH) / 2 + 160 * from_middle(p)
}

function strength(p, q,    knots) {
    knots = (p > crates) + (q > crates)
    return knots == 2 ? 8 : knots ? 3 : 1
}

# The least distance of the middles of two neighbours.
function distance(p, q,    knots) {
    knots = (p > crates) + (q > crates)
    return (width[p] + width[q]) / 2 + (knots == 2 ? 12 : knots ? 18 : 28)
}

function within(value, low, high) {
    if (value > high) value = high
    return value < low ? low : value
}

# From each crate up, as many of its knots as their neighbours leave room for come to stand in one upright line, then the next ones.
function straighten(    turn, j, r, start, low, high, from, to) {
    for (turn = 1; turn <= 60; turn++) for (j = 1; j <= crates; j++) {
        start = row[j] + 1
        for (r = start; (j, r) in knot; r++) {
            from = free_from(knot[j, r])
            to = free_to(knot[j, r])
            if (r > start && (from > high || to < low)) {
                set_upright(j, start, r - 1, low, high)
                start = r
            }
            low = r == start || from > low ? from : low
            high = r == start || to < high ? to : high
        }
        if (r > start) set_upright(j, start, r - 1, low, high)
    }
}

# Where knot p may stand, left and right.
function free_from(p,    q) {
    if (place[p] == 1) return LABELS
    q = slot[row[p], place[p] - 1]
    return x[q] + distance(q, p)
}

function free_to(p,    q) {
    if (place[p] == slots[row[p]]) return WIDTH - MARGIN
    q = slot[row[p], place[p] + 1]
    return x[q] - distance(p, q)
}

# The knots of crate j on rows a to b: over what is below them, as far as low and high allow.
function set_upright(j, a, b, low, high,    r, to) {
    to = within(x[on_the_way(j, a - 1)], low, high)
    for (r = a; r <= b; r++) x[knot[j, r]] = to
}

function centre(    p, left, right, by) {
    left = WIDTH
    for (p = 1; p <= points; p++) {
        if (x[p] - width[p] / 2 < left) left = x[p] - width[p] / 2
        if (x[p] + width[p] / 2 > right) right = x[p] + width[p] / 2
    }
    by = (LABELS + WIDTH - MARGIN - left - right) / 2
    for (p = 1; p <= points; p++) x[p] += by
}

# The picture

function draw(    f, r, i, p, y) {
    y = HEAD
    for (f = floors; f >= 1; f--) {
        top[f] = y + 3
        for (r = highest[f]; r >= lowest[f]; r--) {
            level[r] = y + BAND + (highest[f] - r) * (BOX + BETWEEN) + BOX / 2
        }
        y = level[lowest[f]] + BOX / 2 + BAND
        bottom[f] = y - 3
    }
    draw_head(y + FOOT)
    for (f = floors; f >= 1; f--) draw_floor(f)
    for (p = points; p >= 1; p--) draw_lines(p)
    for (i = crates; i >= 1; i--) draw_crate(i)
    note(y + 28, "An arrow goes from a crate to one that it uses, always down; arrows to the same crate run together. " \
        drawn " of " all " uses are drawn: the others follow from these.")
    note(y + 48, "Small words in a box are libraries of the kit. Drawn from crates.txt by docs/draw-crates.")
    print "</svg>"
}

function draw_head(height) {
    printf "<svg xmlns='http://www.w3.org/2000/svg' width='%d' height='%d' viewBox='0 0 %d %d' role='img'>\n", WIDTH, height, WIDTH, height
    print "<title>The crates by floor</title>"
    print "<style>"
    print "text { font: 15px 'DejaVu Sans', Verdana, 'Helvetica Neue', Arial, sans-serif; fill: #24292f }"
    print ".head { font-size: 22px; font-weight: bold }"
    print ".floor { font-weight: bold }"
    print ".crate { font: 16px 'DejaVu Sans Mono', Menlo, Consolas, monospace; text-anchor: middle }"
    print ".kit { font-size: 12px; fill: #57606a; text-anchor: middle }"
    print ".note { font-size: 14px; fill: #57606a }"
    print ".line { fill: none; stroke-width: 1.6 }"
    print "</style>"
    printf "<rect width='%d' height='%d' fill='#ffffff'/>\n", WIDTH, height
    printf "<text class='head' x='%d' y='38'>The crates by floor</text>\n", MARGIN
}

function shade(f) {
    return (f - 1) % SHADES + 1
}

# A floor's band, with its name in lines of some 20 letters.
function draw_floor(f,    words, n, k, lines, said, y) {
    y = bottom[f] - top[f]
    printf "<rect x='12' y='%d' width='%d' height='%d' rx='4' fill='%s'/>\n", top[f], WIDTH - 24, y, paper[shade(f)]
    printf "<rect x='12' y='%d' width='5' height='%d' fill='%s'/>\n", top[f], y, ink[shade(f)]
    n = split(title[f], words, " ")
    for (k = 1; k <= n; k++) {
        if (k == 1 || length(said[lines] " " words[k]) > 20) said[++lines] = words[k]
        else said[lines] = said[lines] " " words[k]
    }
    y = (top[f] + bottom[f]) / 2 + 5 - 10 * (lines - 1)
    for (k = 1; k <= lines; k++) printf "<text class='floor' x='30' y='%d'>%s</text>\n", y + 20 * (k - 1), escaped(said[k])
}

function escaped(text) {
    gsub(/&/, "\\&amp;", text)
    gsub(/</, "\\&lt;", text)
    return text
}

# The lines from point p down: from a knot one, straight through its row first; from a crate's lower edge one beside the other.
function draw_lines(p,    k, j, q, left, step, from, start, end) {
    start = level[row[p]] + BOX / 2
    if (p > crates) draw_line(p, "M" tenths(x[p]) " " tenths(start - BOX) "V" tenths(start))
    step = belows[p] > 1 ? within((width[p] - 24) / (belows[p] - 1), 0, 24) : 0
    for (k = 1; k <= belows[p]; k++) {
        q = below[p, k]
        left = 0
        for (j = 1; j <= belows[p]; j++) left += x[below[p, j]] < x[q]
        from = x[p] + step * (left - (belows[p] - 1) / 2)
        end = level[row[q]] - BOX / 2 - (q > crates ? 0 : 8)
        draw_line(q, "M" tenths(from) " " tenths(start) "C" tenths(from) " " tenths((start + end) / 2) " " \
            tenths(x[q]) " " tenths((start + end) / 2) " " tenths(x[q]) " " tenths(end))
    }
}

# A line in the colour of the crate that it goes to.
function draw_line(p, path) {
    printf "<path class='line' stroke='%s' d='%s'/>\n", ink[shade(floor[p > crates ? goal[p] : p])], path
}

function tenths(value) {
    return sprintf("%.1f", value)
}

function draw_crate(i,    colour, y) {
    colour = ink[shade(floor[i])]
    y = level[row[i]] - BOX / 2
    if (aboves[i]) printf "<path fill='%s' d='M%s %sl-5 -10h10z'/>\n", colour, tenths(x[i]), tenths(y)
    printf "<rect x='%s' y='%s' width='%s' height='%d' rx='5' fill='#ffffff' stroke='%s'/>\n", \
        tenths(x[i] - width[i] / 2), tenths(y), tenths(width[i]), BOX, colour
    printf "<text class='crate' x='%s' y='%s'>%s</text>\n", tenths(x[i]), tenths(y + (library[i] == "" ? 24 : 18)), name[i]
    if (library[i] == "") return
    printf "<text class='kit' x='%s' y='%s'>%s</text>\n", tenths(x[i]), tenths(y + 33), substr(library[i], 2)
}

function note(y, text) {
    printf "<text class='note' x='%d' y='%d'>%s</text>\n", MARGIN, y, text
}
