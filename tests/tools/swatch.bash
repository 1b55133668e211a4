# shellcheck shell=bash
# Tests of tools/swatch; read by tests/tools/run, which has check, try, ends and gives.
# shellcheck disable=SC2154

# Images and swatches are given as printf's formats, to have any byte in them.
# written IMAGE SWATCH
written() {
    # shellcheck disable=SC2059
    try tools/swatch < <(printf "$1")
    # shellcheck disable=SC2059
    [[ $status -eq 0 && ! -s $work/err ]] && printf "$2" | cmp -s - "$work/out"
}

# refused IMAGE WORDS
refused() {
    # shellcheck disable=SC2059
    try tools/swatch < <(printf "$1")
    ends 1 "$2"
}

# pixels SWATCH: how many it has.
pixels() {
    head -n 1 "$1" | tr -s ' ' '*' | sed 's/^\*//' | { read -r product && echo $((product)); }
}

# A whole image of one colour. blank WIDTH HEIGHT
blank() {
    printf 'P5\n%d %d\n255\n' "$1" "$2"
    head -c $(($1 * $2)) /dev/zero
}

# A swatch as an image: P3, or P6.
plain_of() {
    awk 'NR == 1 { print "P3"; print $1, $2; print 255; next } { print $1, $2, $3 }' "$1"
}

binary_of() {
    # shellcheck disable=SC2059
    printf "$(awk 'NR == 1 { printf "P6\\n%d %d\\n255\\n", $1, $2; next } { printf "\\%03o\\%03o\\%03o", $1, $2, $3 }' "$1")"
}

# there_and_back AS: every example as an image is the same swatch again.
there_and_back() {
    local swatch
    for swatch in examples/*.swatch; do
        "$1" "$swatch" | tools/swatch | cmp -s - "$swatch" || return
    done
}

images() {
    local black='   0   0   0\n' white=' 255 255 255\n'
    check "P1, bits with and without spaces, with comments" \
        written 'P1\n# a # comment\n3 2\n1 0 1 #\n010' "     3     2\n$black$white$black$white$black$white"
    check "P2, highest sample 15" written 'P2 3 1 15\n0 7 15\n' "     3     1\n$black 119 119 119\n$white"
    check "P2, halves go up" written 'P2\n4 1\n510\n1 2 3 509\n' '     4     1\n   1   1   1\n   1   1   1\n   2   2   2\n 255 255 255\n'
    check "P2, highest sample 2" written 'P2\n1 1\n2\n1\n' '     1     1\n 128 128 128\n'
    check "P3, comments between samples" written 'P3\n2#x\n1 255\n1 2 3#y\n255 0 0' '     2     1\n   1   2   3\n 255   0   0\n'
    check "P3, highest sample 65535" written 'P3 1 1 65535 128 129 65535' '     1     1\n   0   1 255\n'
    check "P4, a row is whole bytes" written 'P4\n10 2\n\252\177\000\300' \
        "    10     2\n$black$white$black$white$black$white$black$white$white$black$white$white$white$white$white$white$white$white$black$black"
    check "P5" written 'P5\n2 1\n255\n\000\377' "     2     1\n$black$white"
    check "P5, two bytes a sample" written 'P5\n3 1\n65535\n\200\000\000\200\377\377' '     3     1\n 128 128 128\n   0   0   0\n 255 255 255\n'
    check "P5, highest sample 256 takes two bytes" written 'P5\n1 1\n256\n\001\000' "     1     1\n$white"
    check "P6, samples that look like a comment" written 'P6\n1 2\n255\n# \n\000\015\377' '     1     2\n  35  32  10\n   0  13 255\n'
    check "P6, a comment's line end ends the header" written 'P6\n#\n1 #one\n#\n1\n255#c\n\001\002\003' '     1     1\n   1   2   3\n'
    check "P6, highest sample 100" written 'P6 1 1 100 \001\062\144' '     1     1\n   3 128 255\n'
    check "every example as P3 and back" there_and_back plain_of
    check "every example as P6 and back" there_and_back binary_of
}

damaged_images() {
    local image
    for image in '' 'P' 'Q6\n1 1\n255\nabc' 'P0\n1 1\n1\n1' 'P7\nWIDTH 1\n' '\211PNG\r\n\032\n'; do
        check "no PNM: ${image:-nothing}" refused "$image" 'this is no PBM, PGM or PPM'
    done
    for image in 'P6' 'P6\n' 'P6\n1' 'P6\n1 1\n' 'P6\n1 1\n255' 'P6\n1 1\n255\n' 'P6\n1 1\n255\nab' 'P5\n1 1\n256\na' 'P4\n9 2\nabc' 'P3 1 1 255 1 2' \
        'P1 2 2 101' 'P6\n1 1 #255'; do
        check "cut short: $image" refused "$image" 'damaged: the image is cut short'
    done
    for image in 'P6x\n1 1\n255\nabc' 'P6\n-1 1\n255\nabc' 'P6\n1 1\n255.\nabc' 'P3 1 1 255 1 2 x' 'P1 2 1 12' 'P3 1 1 255 1 2 3.5'; do
        check "no number: $image" refused "$image" 'where a number was to stand'
    done
    check "above the highest sample, plain" refused 'P2 1 1 15 16' 'a sample of 16 where the highest is to be 15'
    check "above the highest sample, binary" refused 'P5 1 1 15 a' 'a sample of 97 where the highest is to be 15'
    check "highest sample 0" refused 'P5 1 1 0 a' 'the highest sample is to be 0'
    check "highest sample 65536" refused 'P5 1 1 65536 ab' 'the highest sample is to be 65536'
    check "width 0" refused 'P5 0 5 255 ' 'has no pixels'
    check "height 0" refused 'P1 5 0 ' 'has no pixels'
    check "a byte left over" refused 'P5 1 1 255 ab' 'more than one image'
    check "a sample left over" refused 'P2 1 1 255 1 2' 'more than one image'
    check "line ends left over are none" written 'P2 1 1 255 1\n \n' '     1     1\n   1   1   1\n'
}

sizes() {
    local size
    for size in '128 128' '16384 1' '1 16384'; do
        # shellcheck disable=SC2086
        try tools/swatch < <(blank $size)
        check "$size is written" gives 16385 '   0   0   0'
    done
    for size in '129 128' '16385 1' '99999999999 99999999999'; do
        try tools/swatch <<<"P5 $size 255 "
        check "$size is too large, and the message has ImageMagick's command" ends 1 "convert - -sample '16384@>' -depth 8 ppm:- |"
        check "$size is too large, and the message has netpbm's command" ends 1 'pamscale -nomix -pixels 12000 - |'
    done
}

names() {
    printf 'P2 1 1 255 1\n' >"$work/it's a scan.pgm"
    printf 'GIF89a' >"$work/it's a scan.gif"
    try tools/swatch "$work/it's a scan.pgm"
    check "an image by its name" gives 2 '   1   1   1'
    try tools/swatch "$work/it's a scan.gif"
    check "another kind by its name: the message has the command" ends 1 "convert '$work/it'\\''s a scan.gif' -sample"
    try tools/swatch "$work/none.pgm"
    check "no such file" ends 2 'cannot be read'
    try tools/swatch --quick
    check "no such option" ends 2 '--help'
    try tools/swatch --help
    check "help" gives - 'tools/swatch [IMAGE]'
}

# What the help says to put in front gives swatches of any scan of a usual shape. scaled SIZE COMMAND..
scaled() {
    local width=${1% *} height=${1#* }
    shift
    try tools/swatch < <(blank "$width" "$height" | "$@" 2>"$work/scaling")
    [[ $status -eq 0 && $(pixels "$work/out") -le 16384 && $("$program" <"$work/out" | wc -l) -eq 2 ]]
}

# Another program may have the name.
is_image_magick() {
    convert -version 2>/dev/null | grep -q ImageMagick
}

pipelines() {
    local size
    for size in '4000 3000' '1001 999' '5000 7' '4000 3' '129 128' '181 91' '3 9000' '40 30'; do
        if command -v pamscale >/dev/null; then check "pamscale, $size" scaled "$size" pamscale -nomix -pixels 12000; fi
        if is_image_magick; then check "convert, $size" scaled "$size" convert - -sample '16384@>' -depth 8 ppm:-; fi
    done
    is_image_magick || echo "not run: scans scaled by ImageMagick, it is not installed"
    if command -v pamscale >/dev/null && command -v pnmtopng >/dev/null; then
        try tools/swatch < <(binary_of examples/ikat.swatch | pnmtopng 2>"$work/scaling" | pngtopnm | pamscale -nomix -pixels 12000)
        check "an example as a PNG and back" cmp -s "$work/out" examples/ikat.swatch
    else
        echo "not run: scans scaled by netpbm, it is not installed"
    fi
}

for AWK in "${awks[@]}"; do
    export AWK
    echo "tools/swatch with $(basename "$(dirname "$AWK")")"
    images
    damaged_images
    sizes
    names
done
unset AWK
pipelines
