# shellcheck shell=bash
# Tests of tools/picture; read by tests/tools/run, which has check, try, ends and gives.
# shellcheck disable=SC2154

# Of a card's first line: the number of entries, and whether it has one.
first_field() { awk 'NR == 1 { print $1 }' "$1"; }
is_served() { [[ $(head -n 1 "$1" | wc -w) -eq 3 ]]; }

# Every tag that is opened is closed, in order, and nothing stands around the outermost one. For this writer's tags only.
well_formed() {
    awk '
        { text = text $0 "\n" }
        END {
            while (match(text, /<[^<>]*>/)) {
                tag = substr(text, RSTART + 1, RLENGTH - 2)
                between = substr(text, 1, RSTART - 1)
                if (between ~ /[<>&]/ || (depth == 0 && between ~ /[^ \n]/))
                    exit 1
                text = substr(text, RSTART + RLENGTH)
                name = tag
                sub(/[ \/].*/, "", name)
                if (tag ~ /^\//) {
                    if (depth == 0 || open[depth--] != substr(tag, 2))
                        exit 1
                } else if (tag !~ /\/$/)
                    open[++depth] = name
                if (depth == 0 && done++)
                    exit 1
            }
            exit !(done && depth == 0 && text == "\n")
        }
    ' "$1" || return
    ! command -v xmllint >/dev/null || xmllint --noout "$1"
}

# The card, read back from the titles of the cells.
card_in() {
    sed -nE 's/^<rect .*<title>Entry [0-9]+: (grey|colour), (.*); mean ([0-9 ]+); ([0-9]+) of ([0-9]+) pixels, [0-9.]+%<.*/\1 \2 \3 \4 \5/p' "$1" |
        sed -e 's/^grey intensity/0 0 0/' -e 's/^colour hue mode/1/' -e 's/[a-z,]//g' |
        awk '{ line[NR] = sprintf("%6d%6d%6d%6d%6d%6d%6d%6d", $1, $2, $3, $4, $5, $6, $7, $8); pixels = $9 }
            END { printf "%6d%6d%6d\n", NR, pixels, 0; for (i = 1; i <= NR; i++) print line[i] }'
}

# x, width and fill of each cell, and then the fill as its mean is to be.
cells_in() {
    sed -nE 's/^<rect x="([0-9]+)" y="0" width="([0-9]+)" height="[0-9]+" fill="(#[0-9a-f]+)"><title>.*mean ([0-9 ]+);.*/\1 \2 \3 \4/p' "$1" |
        while read -r x width fill r g b; do printf '%d %d %s #%02x%02x%02x\n' "$x" "$width" "$fill" "$r" "$g" "$b"; done
}

# The picture of a card of so many entries is 720 wide, and 1 wider for each beyond 255.
# as_wide PICTURE WIDTH
as_wide() {
    head -n 1 "$1" | grep -qE " width=\"$2\" height=\"([0-9]+)\" viewBox=\"0 0 $2 \\1\""
}

# Cells stand side by side to the right edge, and only the hairline's gap between greys and colours is left out.
# side_by_side PICTURE GREYS ENTRIES
side_by_side() {
    local wide=$((720 + ($3 > 255 ? $3 - 255 : 0)))
    as_wide "$1" "$wide" || return
    cells_in "$1" | awk -v greys="$2" -v entries="$3" -v wide="$wide" '
        NR == 1 { at = $1; if (at != 0 && at != 264) exit bad = 1 }
        NR == greys + 1 && greys > 0 { at += 9 }
        $1 != at || $2 < 1 || $3 != $4 { exit bad = 1 }
        { at += $2 }
        END { exit bad || NR != entries || at != wide }
    '
}

# The swatch, read back from the runs of the cloth.
swatch_in() {
    awk '
        function hex(two) { return 16 * (index(digits, substr(two, 1, 1)) - 1) + index(digits, substr(two, 2, 1)) - 1 }
        BEGIN { digits = "0123456789abcdef" }
        /^<title>The cloth/ { width = $3; height = $5 }
        /^<path stroke="#......" d=/ {
            colour = sprintf("%4d%4d%4d", hex(substr($2, 10, 2)), hex(substr($2, 12, 2)), hex(substr($2, 14, 2)))
            runs = $0
            gsub(/.* d="M|".*/, "", runs)
            n = split(runs, run, "M")
            for (i = 1; i <= n; i++) {
                split(run[i], at, /[ h]/)
                for (x = 0; x < at[3]; x++)
                    pixel[at[2] * width + at[1] + x] = colour
            }
        }
        END {
            printf "%6d%6d\n", width, height
            for (i = 0; i < width * height; i++)
                print pixel[i]
        }
    ' "$1"
}

# shows CARD [SWATCH]
shows() {
    local greys
    greys=$(awk 'NR > 1 && $1 == 0' "$1" | wc -l)
    try tools/picture "$@"
    gives - '</svg>' && well_formed "$work/out" && card_in "$work/out" | cmp -s - "$1" &&
        side_by_side "$work/out" "$greys" "$(first_field "$1")" || return
    [[ $# -eq 1 ]] || swatch_in "$work/out" | cmp -s - "$2"
}

pictures() {
    local card
    for card in examples/*.card; do
        check "$card" shows "$card"
        check "$card beside its cloth" shows "$card" "${card%.card}.swatch"
    done
    for card in tests/swatches/*.card; do
        ! is_served "$card" || check "$card" shows "$card"
    done
    try tools/picture examples/tartan.card examples/tartan.swatch
    check "docs/tartan.svg is the example's picture" cmp -s "$work/out" docs/tartan.svg
    try tools/picture - <examples/tweed.card
    check "a card on standard input" gives - '1296 pixels: 3 greys and 1 colour"'
}

# A stored answer that is only a number has the sentence of that number.
numbers() {
    local card numbers=() number
    for card in tests/swatches/*.card; do
        is_served "$card" || numbers+=("$(<"$card")")
    done
    while read -r number; do
        try tools/picture < <(printf '%6d\n' "$number")
        check "a number alone, $number" ends 1 "number $number: $(sed -n "s/^$number //p" tools/grounds)"
        check "$number has a sentence" grep -q "^$number [A-Z].*\.$" tools/grounds
    done < <(printf '%s\n' "${numbers[@]}" | sort -un)
}

# no_card TEXT: it is given as printf's format.
no_card() {
    # shellcheck disable=SC2059
    try tools/picture < <(printf "$1")
    ends 2 'this is no card'
}

damaged_cards() {
    local head='     2    10     0\n' grey='     0     0     0     1     8     9    10     4\n' colour='     1     2     1     0   255     0    20     6\n' text
    try tools/picture < <(printf %b "$head$grey$colour")
    check "a card by hand" gives - 'Entry 1: colour, hue mode 2, saturation mode 1, intensity mode 0; mean 255 0 20; 6 of 10 pixels, 60.0%'
    for text in '' '\n' "$head" "$head$grey" "$head$grey$colour$colour" "$head$colour$grey" "$head$grey${grey/4\\n/6\\n}" "$head$grey$colour\n" "$head$grey$colour " \
        "${head/10/11}$grey$colour" "${head/ 2/ 3}$grey$colour" "${head/ 2/02}$grey$colour" "${head/ 0/ 1}$grey$colour" "${head/0\\n/0 \\n}$grey$colour" \
        "     0     0     0\n" "$head$grey${colour/ 1/ 2}" "$head${grey/0     0     0/0     1     0}$colour" "$head${grey/0     0     0/0     0     1}$colour" \
        "$head$grey${colour/255/256}" "$head$grey${colour/   0    20/ 256    20}" "$head$grey${colour/ 20/256}" "$head$grey${colour/     2/    60}" \
        "$head$grey${colour/2     1/2    42}" "$head$grey${colour/1     0/1    52}" "$head$grey${colour/  255/0255}" "$head$grey${colour/   20/   +2}" \
        "$head$grey${colour/    20/\\t   20}" "$head$grey${colour/   20/   -2}" "$head$grey${colour/   0 /\\000   }" "$head$grey${colour/6\\n/6\\r\\n}" \
        "${head/10/ 4}${grey/4\\n/4\\n}${colour/6\\n/0\\n}" "${grey}${head}${colour}" '     1 16385     0\n     0     0     0     0     1     1     1 16385\n' \
        '     3\n\n' '     3' '    03\n' '     7\n' '     0\n' '     3     3\n'; do
        check "no card: $(head -c 60 <<<"$text" | head -n 1)" no_card "$text"
    done
}

# A card of this many entries, of one pixel each.
entries() {
    awk -v n="$1" 'BEGIN { printf "%6d%6d%6d\n", n, n, 0
        for (i = 0; i < n; i++) printf "%6d%6d%6d%6d%6d%6d%6d%6d\n", 1, int(i / 20), i % 20, 0, i % 256, 9, 7, 1 }'
}

most_entries() {
    local n
    for n in 255 256 999 1000; do
        entries "$n" >"$work/$n.card"
        check "$n entries" shows "$work/$n.card"
    done
    try tools/picture < <(entries 1001)
    check "1001 entries" ends 2 'not one of 1 to 1000 entries'
    for n in 255 256 1000; do
        check "$n entries beside their cloth" shows "tests/swatches/$n-entries.card" "tests/swatches/$n-entries.txt"
    done
}

# A card that is cut anywhere is no card.
cut_cards() {
    local length
    for length in 1 6 7 17 18 19 20 66 67 68 116 117 166 213 214; do
        try tools/picture < <(head -c "$length" examples/tartan.card)
        check "a card cut to $length bytes" ends 2 'this is no card'
    done
}

wrong_use() {
    try tools/picture examples/ikat.card examples/tartan.swatch
    check "a swatch of another size" ends 2 'the card has 1600 pixels, the swatch 48 x 48'
    try tools/picture examples/tartan.card README.md
    check "a swatch that is none" ends 2 'this is no swatch'
    try tools/picture examples/tartan.card <(head -c 29964 examples/tartan.swatch)
    check "a swatch that is cut short" ends 2 'this is no swatch'
    try tools/picture examples/tartan.card <(sed '3s/^..../ 256/' examples/tartan.swatch)
    check "a swatch with a pixel of 256" ends 2 'this is no swatch'
    try tools/picture examples/tartan.card /dev/null
    check "an empty swatch" ends 2 'this is no swatch'
    try tools/picture "$work/none.card"
    check "no such file" ends 2 'cannot be read'
    try tools/picture --quick
    check "no such option" ends 2 '--help'
    try tools/picture --help
    check "help" gives - 'tools/picture CARD [SWATCH]'
}

for AWK in "${awks[@]}"; do
    export AWK
    echo "tools/picture with $(basename "$(dirname "$AWK")")"
    pictures
    numbers
    damaged_cards
    most_entries
    cut_cards
    wrong_use
done
unset AWK
