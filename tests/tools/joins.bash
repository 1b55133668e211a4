# shellcheck shell=bash
# Tests of tools/joins; read by tests/tools/run, which has check, try, ends and gives.
# shellcheck disable=SC2154

# The line of the checks below whose counts do not matter: each small hump is joined to the large one beside it.
humps='0 3 2 30 0 30 2 3 0'

# lists CLOSENESS COUNTS: the listing is the text on standard input, byte for byte.
lists() {
    cat >"$work/expected"
    try tools/joins -c "$1" <<<"$2"
    [[ $status -eq 0 && ! -s $work/err ]] && diff "$work/out" "$work/expected"
}

# The costs of these lines, worked out by hand, in bits. The bar of L bins is log2(L(L+1)/2) + closeness; the heaviest part is the one
# whose counts are least likely under the fit, and the cost is its weight minus the bar.
#
# 0 1 0 1 0: the rise is 0 1 0 1, the fall 1 0 1 0, and they mirror each other, so the join is by the fall. Its fit is 1, 1/2, 1/2, 0;
# bin 2 is empty where 1/2 of 2 was to be: 2 log2(2 / 1.5) = 0.830, and the bar of 4 bins log2(10) = 3.322.
#
# 2 0 2 0 0 2 at -2: by the fall, all 6 bins, of fit 2, 1, 1, 2/3, 2/3, 2/3. Bins 3 and 4 are empty where 4/3 of 6 were to be:
# 6 log2(6 / (14/3)) = 2.175, and the bar log2(21) - 2 = 2.392. No two segments can be joined: of 3 bins the bar is 0.585, of 4 1.322;
# the cheapest is 2 0 2 0, of fit 2, 1, 1, 0, where bin 1 is empty: 4 log2(4 / 3) = 1.660, which is 0.338 above the bar.
#
# 1 0 1 0 2 2 at -3: by the rise, up to bin 4, the first of the two highest. Its fit is 1/2 four times and 2. Bin 1 is empty where 1/2 of 4
# was to be: 4 log2(4 / 3.5) = 0.771, and the bar of 5 bins log2(15) - 3 = 0.907.
by_hand() {
    check "two segments, by the fall" lists 0 '0 1 0 1 0' <<'END_OF_LISTING'
line of 5 bins, sum 2, closeness 0

counts, each row from the bin at its left
    0:      0      1      0      1      0

first separators
    0   2   4

joins, in turn
join  first  segments  from    to  by        bits  separators dropped
   0      0         2     0     4  fall    -2.492     2

modes
mode  bins            counts
   0     0 to    4         2
END_OF_LISTING
    check "a run of three, by the fall" lists -2 '2 0 2 0 0 2' <<'END_OF_LISTING'
line of 6 bins, sum 6, closeness -2

counts, each row from the bin at its left
    0:      2      0      2      0      0      2

first separators
    0   1   3   5

joins, in turn
join  first  segments  from    to  by        bits  separators dropped
   0      0         3     0     5  fall    -0.217     1   3

modes
mode  bins            counts
   0     0 to    5         6
END_OF_LISTING
    try tools/joins -c -3 <<<'1 0 1 0 2 2'
    check "a run of three, by the rise" gives - '   0      0         3     0     5  rise    -0.136     1   3'
}

# Segments are numbered as they stand just before a join: that of the second join here was number 2 at first, and has become number 1.
in_turn() {
    check "two joins, by the rise and by the fall" lists 0 "$humps" <<'END_OF_LISTING'
line of 9 bins, sum 70, closeness 0

counts, each row from the bin at its left
    0:      0      3      2     30      0     30      2      3      0

first separators
    0   2   4   6   8

joins, in turn
join  first  segments  from    to  by        bits  separators dropped
   0      0         2     0     4  rise    -3.239     2
   1      1         2     4     8  fall    -3.239     6

modes
mode  bins            counts
   0     0 to    3        35
   1     4 to    8        35
END_OF_LISTING
    check "first, segments, by and bits are those of the kit's first log" beside_the_log
}

# The first case of the kit's logs, of three joins, and its listing: first segment, segments, rise or fall, and bits.
beside_the_log() {
    local histogram closeness
    sed -n '/^histogram/,/^$/p;/^log_after/q' tests/vectors/join_log.txt >"$work/case"
    histogram=$(sed -n 's/^histogram //p' "$work/case")
    closeness=$(sed -n 's/^closeness //p' "$work/case")
    awk '$1 == "joins" { joins = $2 } $1 == "log_after" {
        for (i = 1; i <= joins; i++) { split($(i + 1), of, ","); printf "%d %d %s %.3f\n", of[1], of[2], of[3] ? "rise" : "fall", of[4] / 67108864 }
    }' "$work/case" >"$work/expected"
    try tools/joins -c "$closeness" <<<"$histogram"
    as_rows "$work/out" | awk '$1 == "join" { print $3, $4, $7, $8 }' >"$work/rows"
    [[ $status -eq 0 && $(wc -l <"$work/rows") -eq 3 ]] && diff "$work/rows" "$work/expected"
}

nothing_to_join() {
    check "humps that stay apart" lists 0 '0 20 0 0 20 5' <<'END_OF_LISTING'
line of 6 bins, sum 45, closeness 0

counts, each row from the bin at its left
    0:      0     20      0      0     20      5

first separators
    0   2   5

joins, in turn: none

modes
mode  bins            counts
   0     0 to    1        20
   1     2 to    5        25
END_OF_LISTING
    try tools/joins <<<'7 7'
    check "two bins" gives - '   0     0 to    1        14'
    try tools/joins <<<'65536 0'
    check "the largest count" gives - '    0:  65536      0'
}

# line_of BINS SEED: counts that go up and down.
line_of() {
    awk -v bins="$1" -v seed="$2" 'BEGIN { for (i = 0; i < bins; i++) { seed = (seed * 7141 + 54773) % 259200; print i % 2 ? int(seed / 3000) : int(seed / 20000) } }'
}

# The listing as words: those of the counts and of the first separators in one row, and each line of the joins and of the modes in a row,
# `join NUMBER FIRST SEGMENTS FROM TO BY BITS DROPPED..` and `mode NUMBER FROM TO COUNTS`.
as_rows() {
    awk '
        /^counts,|^first separators|^joins,|^modes/ { if (row != "") print row; row = /^c/ ? "counts" : /^f/ ? "first" : ""; part = $1; next }
        /^line|^join |^mode |^$/ { next }
        part == "counts," { $1 = ""; row = row $0; next }
        part == "first" { for (i = 1; i <= NF; i++) row = row " " $i; next }
        part == "modes" { sub(" to ", " ") }
        { print (part == "modes" ? "mode " : "join ") $0 }
    ' "$1"
}

# The listing, read back: its counts are those of the file; each join is one line and has its run of the separators that there are, from
# the number and as many as it says, and drops those inside, of which it lists all or the first two, the last and their number; what is
# left are the modes, each with its counts. And no line is wider than 80 columns.
holds_together() {
    as_rows "$work/out" >"$work/rows"
    awk -v line="$(tr -s ' \n' ' ' <"$1")" '
        BEGIN { bins = joins = modes = bad = 0 }
        $1 == "counts" {
            n = split(line, want, " ")
            if (NF - 1 != n) bad = 1
            for (i = 0; i < n; i++) if ((count[i] = $(i + 2)) != want[i + 1]) bad = 1
        }
        $1 == "first" { m = NF - 1; for (i = 0; i < m; i++) at[i] = $(i + 2) }
        $1 == "join" {
            if ($2 != joins++ || $4 < 2 || ($7 != "rise" && $7 != "fall") || $8 !~ /^-[0-9]+\.[0-9][0-9][0-9]$/) bad = 1
            if ($3 + $4 >= m || at[$3] != $5 || at[$3 + $4] != $6) bad = 1
            dropped = ""
            for (k = 1; k < $4; k++) if ($4 <= 8 || k <= 2) dropped = dropped " " at[$3 + k]
            if ($4 > 8) dropped = dropped " .. " at[$3 + $4 - 1] ", " $4 - 1 " in all"
            listed = ""
            for (k = 9; k <= NF; k++) listed = listed " " $k
            if (listed != dropped) bad = 1
            for (k = $3 + $4; k < m; k++) at[k - $4 + 1] = at[k]
            m -= $4 - 1
        }
        $1 == "mode" {
            end = modes + 2 == m ? at[modes + 1] : at[modes + 1] - 1
            if ($2 != modes || $3 != at[modes] || $4 != end) bad = 1
            for (sum = 0; bins <= end; bins++) sum += count[bins]
            if (sum != $5) bad = 1
            modes++
        }
        END { exit bad || n < 2 || bins != n || modes != m - 1 }
    ' "$work/rows" && ! grep -qE '.{81}' "$work/out"
}

# listed_well FILE CLOSENESS
listed_well() {
    try tools/joins --closeness "$2" "$1"
    gives - "closeness $2" && holds_together "$1"
}

# ripple BINS LOW HIGH: counts that take turns.
ripple() {
    awk -v bins="$1" -v low="$2" -v high="$3" 'BEGIN { for (i = 0; i < bins; i++) print i % 2 ? high : low }'
}

# A line of 256 bins with as many humps as there can be, and lines whose joins are of many segments: 8 and 9, where the list of those
# dropped is cut, 26, and 128 as the one join of 256 bins.
long_lines() {
    local seed closeness
    for seed in 1 2 3; do
        line_of 256 "$seed" >"$work/line"
        for closeness in -10 0 20; do
            check "256 bins, line $seed, closeness $closeness" listed_well "$work/line" "$closeness"
        done
    done
    ripple 16 2 3 >"$work/line"
    check "a run of 8 segments" listed_well "$work/line" -7
    check "all it drops are listed" grep -qxE ' {3}0 {6}0 {9}8 .*     2   4   6   8  10  12  14' "$work/out"
    ripple 18 1 2 >"$work/line"
    check "a run of 9 segments" listed_well "$work/line" -7
    check "of more than 7 the first two, the last and their number" grep -qxE ' {3}0 {6}0 {9}9 .*     2   4  [.][.]  16, 8 in all' "$work/out"
    ripple 52 10 11 >"$work/line"
    check "a run of 26 segments" listed_well "$work/line" -10
    ripple 256 68 116 >"$work/line"
    check "a run of 128 segments" listed_well "$work/line" -10
    check "it is one line" grep -qxE ' {3}0 {6}0 {7}128 .*     2   4  [.][.] 254, 127 in all' "$work/out"
    line_of 255 9 | cat - <(echo 65536) >"$work/line"
    try tools/joins "$work/line"
    check "256 bins, turned down for their sum" ends 1 'number 7: The counts of the histogram add up to more than 65,536.'
}

texts() {
    local text
    printf '0 1\n0\t1\r\n\n0' >"$work/it's a line"
    try tools/joins "$work/it's a line"
    check "spaces, tabs and line ends" gives - '    0:      0      1      0      1      0'
    try tools/joins -- "$work/it's a line"
    check "a name after --" gives - 'line of 5 bins'
    try tools/joins - <<<'0 007'
    check "standard input by its name, and zeros in front" gives - '    0:      0      7'
    for text in x 1.5 -3 +3 '1,' 0x10 'é' "1'" '--'; do
        try tools/joins <<<"4 5 $text 6"
        check "no count: $text" ends 2 'where that of bin 2 was to stand'
    done
    try tools/joins < <(printf '4 \0005 6')
    check "no count: a byte of zero" ends 2 "'?5' where that of bin 1 was to stand"
    try tools/joins < <(printf '%0100000dx' 7)
    check "a long word, of which the beginning is shown" ends 2 "'00000000000000000000000' where that of bin 0"
    for text in 255 256 257 258 300; do
        try tools/joins < <(line_of "$text" 1 && echo x)
        check "no count after $text" ends 2 "'x' where that of bin $text was to stand"
    done
    check "messages are one line" [ "$(wc -l <"$work/err")" -eq 1 ]
}

turned_down() {
    local text sum='number 7: The counts of the histogram add up to more than 65,536.'
    local bins='number 6: The histogram has fewer than 2 bins or more than 256.' closeness
    for text in '' ' ' 5; do
        try tools/joins <<<"$text"
        check "too few bins: '$text'" ends 1 "$bins"
    done
    for text in 257 258 1000; do
        try tools/joins < <(line_of "$text" 1)
        check "$text bins" ends 1 "$bins"
    done
    for text in '65536 1' '4294967295 1' '4294967296 0' '4294967297 5' '99999999999999999999999999 0'; do
        try tools/joins <<<"$text"
        check "too large a sum: $text" ends 1 "$sum"
    done
    for closeness in 21 -11 2147483648 -2147483649 4294967296 99999999999999999999; do
        try tools/joins -c "$closeness" <<<"$humps"
        check "closeness $closeness" ends 1 'number 8: The closeness is below -10 or above 20.'
    done
}

wrong_use() {
    local closeness
    for closeness in '' x 1.5 '1 2' ' 3' 0x10 -; do
        try tools/joins -c "$closeness" <<<"$humps"
        check "closeness '$closeness'" ends 2 'the closeness is no whole number'
    done
    try tools/joins -c
    check "no closeness after -c" ends 2 '-c wants a number'
    try tools/joins --quick
    check "no such option" ends 2 '--help'
    try tools/joins "$work/line" "$work/line"
    check "two files" ends 2 'one histogram at a time'
    try tools/joins "$work/none"
    check "no such file" ends 2 'cannot be read'
    try tools/joins "$work"
    check "a folder" ends 2 'cannot be read'
    try tools/joins --help
    check "help" gives - 'tools/joins [-c CLOSENESS] [COUNTS]'
    check "help begins with what is listed" [ "$(head -n 1 "$work/out" | cut -d , -f 1)" = 'Lists the joins of a line of bins' ]
    check "help says what from and to are" gives - 'the first and the last separator of the run'
    check "help has the rules of the log" gives - 'J1 and J2'
    check "help has the status of a failed write" in_status_2 'a listing that cannot be written'
    if [[ -c /dev/full ]]; then
        unwritten "a listing" 'the listing cannot be written'
        unwritten "help" 'the help cannot be written' --help
    fi
}

# in_status_2 WORDS: the help that was tried has them between status 2 and status 3.
in_status_2() {
    tr '\n' ' ' <"$work/out" | sed 's/.*Exit status: .*; 2 \(.*\); 3 .*/\1/' | grep -qF -- "$1"
}

# unwritten NAME WORDS WORD..: with these words it ends when nothing can be written, and says so.
unwritten() {
    local name=$1 words=$2
    shift 2
    status=0
    timeout 60 tools/joins "$@" <<<"$humps" >/dev/full 2>"$work/err" || status=$?
    check "$name that cannot be written" [ "$status" -eq 2 ]
    check "$name that cannot be written: the message" grep -qF "$words" "$work/err"
}

# What it is compiled with: nothing, a compiler with flags, a library without the calls, and one that is not there.
compiling() {
    CC=no-such-compiler try tools/joins <<<"$humps"
    check "no compiler" ends 2 'there is no C compiler no-such-compiler; CC names another'
    CC='no-such-compiler -O0' try tools/joins <<<"$humps"
    check "no compiler, with a flag" ends 2 'there is no C compiler no-such-compiler; CC names another'
    CC='cc -O0' try tools/joins <<<"$humps"
    check "a compiler with flags" gives - 'line of 9 bins'
    CC='cc -O0 --no-such-flag' try tools/joins <<<"$humps"
    check "a compiler with a flag that it does not have" ends 2 'it cannot be compiled with'
    check "the flag reaches the compiler" grep -q 'no-such-flag' "$work/err"
    TMPDIR=$work/none try tools/joins <<<"$humps"
    check "no folder to compile it in" ends 2 'there is no folder to compile it in'
    mkdir "$work/empty" "$work/none.d"
    ar rc "$work/empty/libkistrovu.a"
    KISTROVU_LIB=$work/empty try tools/joins <<<"$humps"
    check "a library without the calls" ends 2 "it cannot be compiled with $work/empty/libkistrovu.a"
    check "the compiler says why" grep -q 'kistrovu_join_log' "$work/err"
    KISTROVU_LIB=$work/none.d try tools/joins <<<"$humps"
    check "no library in the folder that is named" ends 2 "$work/none.d/libkistrovu.a is missing"
    mkdir "$work/bare"
    cp -R tools include "$work/bare"
    PKG_CONFIG_LIBDIR=$work/none.d PKG_CONFIG_PATH='' try "$work/bare/tools/joins" <<<"$humps"
    check "no library at all" ends 2 'libkistrovu.a is missing: tools/library makes it; nor does pkg-config find an installed one'
    KISTROVU_LIB=$top/target/staticlib try "$work/bare/tools/joins" <<<"$humps"
    check "a library in another folder" gives - 'line of 9 bins'
    installed
    # shellcheck disable=SC2016 # the shell that is started has $1
    try sh -c 'cd / && "$1"/tools/joins' sh "$top" <<<"$humps"
    check "from another folder" gives - 'line of 9 bins'
}

# The installed library, in a tree that has none of its own.
installed() {
    local place=$work/installed
    if ! command -v pkg-config >/dev/null; then
        echo "not run: tools/joins with an installed library, pkg-config is not installed"
        return
    fi
    mkdir -p "$place/include" "$place/lib"
    cp include/kistrovu.h "$place/include"
    cp target/staticlib/libkistrovu.a "$place/lib"
    printf '%s\n' 'Name: kistrovu' 'Description: -' 'Version: 1' "Cflags: -I$place/include" "Libs: -L$place/lib -lkistrovu" >"$place/kistrovu.pc"
    PKG_CONFIG_PATH=$place try "$work/bare/tools/joins" <<<"$humps"
    check "the installed library" gives - 'line of 9 bins'
}

# A compiler with flags that add an engine whose answers are altered. engine NUMBER
engine() {
    local wrap='-Wl,--wrap=kistrovu_join_log,--wrap=kistrovu_replay,--wrap=kistrovu_version'
    CC="cc -DWRONG=$1 $wrap tests/tools/wrong_joins.c" try tools/joins <<<"$humps"
}

# A library whose log and replay do not agree: nothing is listed.
wrong_engines() {
    local number words not='the listing is not confirmed:'
    engine 0
    check "an engine with nothing altered" gives - 'line of 9 bins'
    while read -r number words; do
        engine "$number"
        check "wrong engine $number: $words" ends 3 "$not $words"
    done <<'END_OF_ENGINES'
1 the replay of its joins leaves other separators
2 the replay of its joins leaves other separators
3 the replay of its joins is turned down, number 20
4 the replay of its joins is turned down, number 20
5 the segments of join 0 are not there
6 the segments of join 0 are not there
7 the segments of join 0 are not there
8 the replay of its joins is turned down, number 20
9 the log has more joins than the line has bins
END_OF_ENGINES
    engine 10
    check "a library of another version" ends 2 'the library is of another version than its header'
    engine 11
    check "a ground that no line should have" ends 1 'number 10: No line should have this ground.'
}

echo "tools/joins"
by_hand
in_turn
nothing_to_join
long_lines
texts
turned_down
wrong_use
compiling
wrong_engines
