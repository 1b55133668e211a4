# shellcheck shell=bash
# Tests of tools/archive; read by tests/tools/run, which has check, try, ends and gives.
# shellcheck disable=SC2154,SC2016

sentence_3='A pixel line is not three numbers from 0 to 255, or there are fewer or more lines than pixels.'
torn="sub folder/it's \"torn\".swatch"

# Swatches of 1 to 12 rows and columns, of a few colours each, by a generator with a fixed seed. make_swatches FOLDER COUNT
make_swatches() {
    awk -v folder="$1" -v count="$2" '
        function next_number(below) {
            seed = (seed * 1103 + 12345) % 1048573
            return int(seed / 7) % below
        }
        BEGIN {
            seed = 1
            for (k = 1; k <= count; k++) {
                file = sprintf("%s/cloth %03d.%s", folder, k, k % 2 ? "swatch" : "txt")
                width = 1 + next_number(12)
                height = 1 + next_number(12)
                for (i = 0; i < 12; i++)
                    yarn[i] = next_number(256)
                printf "%6d%6d\n", width, height > file
                for (p = 0; p < width * height; p++) {
                    i = 3 * next_number(4)
                    printf "%4d%4d%4d\n", yarn[i], yarn[i + 1], yarn[i + 2] > file
                }
                close(file)
            }
        }
    '
}

# An archive of COUNT swatches, one of them damaged, with names of every kind. make_archive FOLDER COUNT
make_archive() {
    local odd=('-n.txt' '$(echo).swatch' 'a;b|c&d.txt' $'line\nfeed.swatch' 'back\slash.txt' 'star*?[a].swatch' '{} {.} {#}.txt'
        ' space at both ends .swatch' 'dots.in.it.swatch' '#hash.txt' '.swatch' "quote'.txt" 'double".swatch' '%d%s.txt' '~.txt')
    local name
    mkdir -p "$1/sub folder/-deeper" "$1/all"
    make_swatches "$1/all" $(($2 - ${#odd[@]} - 1))
    for name in "${odd[@]}"; do
        cp examples/undyed.swatch "$1/sub folder/-deeper/$name"
    done
    cp tests/swatches/last-byte-missing.txt "$1/$torn"
}

cards_in() {
    find "$1" -name '*.card' -print0 | tr -dc '\0' | wc -c
}

# Each swatch of a folder has the card that the program prints, or none if that is but a number; there are no other cards and no
# leavings. all_right FOLDER [CARDS]
all_right() {
    local swatch card count=0
    while IFS= read -r -d '' swatch; do
        card=${2-$1}/${swatch#"$1"/}
        card=${card%.*}.card
        "$program" <"$swatch" >"$work/wanted"
        if [[ $(wc -c <"$work/wanted") -eq 7 ]]; then
            ! [[ -e $card ]] || return
        else
            cmp -s "$card" "$work/wanted" || return
            count=$((count + 1))
        fi
    done < <(find "$1" -type f \( -name '*.swatch' -o -name '*.txt' \) ! -name turned-down.txt -print0)
    [[ $(cards_in "${2-$1}") -eq $count && ! -e ${2-$1}/.archive ]]
}

# Cards of a run that was stopped are fewer than all, but whole. only_whole FOLDER COUNT
only_whole() {
    local card swatch
    while IFS= read -r -d '' card; do
        swatch=${card%.card}.swatch
        [[ -e $swatch ]] || swatch=${card%.card}.txt
        "$program" <"$swatch" | cmp -s - "$card" || return
    done < <(find "$1" -name '*.card' -print0)
    [[ $(cards_in "$1") -lt $2 ]]
}

# says STATUS LINE..: what was tried ended so, and wrote these lines and no others.
says() {
    [[ $status -eq $1 ]] && printf '%s\n' "${@:2}" | cmp -s - "$work/out"
}

# Everything in a folder, with its file numbers and times.
state_of() {
    (cd "$1" && find . -type f ! -name turned-down.txt -exec ls -lid --full-time {} +)
}

archive() {
    tools/archive --card "$program" "$@"
}

first_run() {
    local folder=$1
    make_archive "$folder" 200
    try archive "$folder"
    check "200 swatches: 199 cards, one turned down, by name, number and sentence" \
        says 1 '200 swatches: 199 cards made, 0 were there already' '1 turned down:' "  $torn: 3: $sentence_3"
    check "each card is the program's, of every kind of name" all_right "$folder"
    check "turned-down.txt" cmp -s "$folder/turned-down.txt" <(echo "$torn: 3: $sentence_3")
    state_of "$folder" >"$work/before"
    try archive "$folder"
    check "a second run makes nothing" \
        says 1 '200 swatches: 0 cards made, 199 were there already' '1 turned down:' "  $torn: 3: $sentence_3"
    check "a second run writes nothing" cmp -s "$work/before" <(state_of "$folder")
}

changes() {
    local folder=$1
    rm "$folder/all/cloth 007.card" "$folder/all/cloth 008.card"
    : >"$folder/all/cloth 010.card"
    touch -r "$folder/all/cloth 010.txt" "$folder/all/cloth 010.card"
    sleep 0.01
    touch "$folder/all/cloth 001.swatch"
    mv "$folder/all/cloth 003.swatch" "$work/kept"
    mv "$folder/all/cloth 005.swatch" "$folder/all/cloth 003.swatch"
    mv "$work/kept" "$folder/all/cloth 005.swatch"
    cp examples/tweed.swatch "$folder/$torn"
    try archive "$folder"
    check "done again: two cards removed, one emptied, a swatch touched, two swapped, one mended" \
        says 0 '200 swatches: 7 cards made, 193 were there already'
    check "and each card is its swatch's" all_right "$folder"
    check "turned-down.txt goes with the last that was" test ! -e "$folder/turned-down.txt"
    printf '     2     1\n' >"$folder/all/cloth 009.swatch"
    printf '   129   128\n' >"$folder/-first.txt"
    try archive "$folder"
    check "two that are turned down, in order of names" \
        says 1 '201 swatches: 0 cards made, 199 were there already' '2 turned down:' \
        '  -first.txt: 2: The width times the height is 0 or above 16,384.' "  all/cloth 009.swatch: 3: $sentence_3"
    check "the card of a swatch that is now damaged is gone" all_right "$folder"
}

# Every stored swatch, into another folder.
stored() {
    local card number lines=() swatches=(tests/swatches/*.txt) to="$work/other cards/new"
    for card in tests/swatches/*.card; do
        number=$(tr -d ' ' <"$card")
        [[ $(wc -c <"$card") -ne 7 ]] || lines+=("$(basename "$card" .card).txt: $number: $(sed -n "s/^$number //p" tools/grounds)")
    done
    mkdir "$work/stored"
    cp "${swatches[@]}" "$work/stored"
    state_of "$work/stored" >"$work/before"
    try archive "$work/stored" "$to"
    check "the stored swatches, damaged ones and all" \
        says 1 "${#swatches[@]} swatches: $((${#swatches[@]} - ${#lines[@]})) cards made, 0 were there already" "${#lines[@]} turned down:" "${lines[@]/#/  }"
    check "their cards in another folder" all_right "$work/stored" "$to"
    check "and turned-down.txt beside them" cmp -s "$to/turned-down.txt" <(printf '%s\n' "${lines[@]}")
    check "nothing new beside the swatches" cmp -s "$work/before" <(state_of "$work/stored")
}

# stand_in NAME: a program in place of another one, from standard input.
stand_in() {
    mkdir -p "$work/bin"
    cat >"$work/bin/$1"
    chmod +x "$work/bin/$1"
}

# one_swatch FOLDER: an archive of one.
one_swatch() {
    mkdir "$1"
    cp examples/tartan.swatch "$1"
}

# Links to nothing, to a folder, and to a pipe that nobody writes to; and a file that can be opened, and then not be read.
unreadable() {
    local folder=$work/unreadable unread=(gone.swatch folder.txt pipe.swatch)
    one_swatch "$folder"
    mkfifo "$folder/pipe"
    ln -s nowhere "$folder/gone.swatch"
    ln -s . "$folder/folder.txt"
    ln -s pipe "$folder/pipe.swatch"
    if [[ -e /proc/$$/mem ]]; then
        ln -s "/proc/$$/mem" "$folder/memory.swatch"
        unread+=(memory.swatch)
    fi
    mapfile -t unread < <(printf '  %s\n' "${unread[@]}" | sort)
    try archive "$folder"
    check "files that cannot be read" says 1 "$((1 + ${#unread[@]})) swatches: 1 cards made, 0 were there already" \
        "${#unread[@]} could not be read, or the program failed:" "${unread[@]}"
}

# A find that ends as it does when a folder may not be entered.
unread_folder() {
    one_swatch "$work/unlisted"
    stand_in find <<<"$(command -v find)"' "$@"; exit 1'
    PATH=$work/bin:$PATH try archive "$work/unlisted"
    rm "$work/bin/find"
    check "a folder that cannot be read" says 1 '1 swatches: 1 cards made, 0 were there already' 'there are folders that could not be read'
}

# Programs that do not print a whole card. not_taken NAME, the program from standard input
not_taken() {
    local folder="$work/not taken"
    stand_in card
    one_swatch "$folder"
    PROGRAM=$program try tools/archive --card "$work/bin/card" "$folder"
    check "$1" says 1 '1 swatches: 0 cards made, 0 were there already' '1 could not be read, or the program failed:' '  tartan.swatch'
    check "$1: no card" test "$(ls -A "$folder")" = tartan.swatch
    rm -r "$folder"
}

bad_programs() {
    local here=$'#!/bin/sh\n'
    not_taken "a program that fails" <<<"$here"'"$PROGRAM"; exit 1'
    not_taken "a card without its last byte" <<<"$here"'"$PROGRAM" | head -c 214'
    not_taken "a card without its last entry" <<<"$here"'"$PROGRAM" | head -n 4'
    not_taken "a program that prints nothing" <<<"$here"':'
    not_taken "a program that prints something else" <<<"$here"'cat'
}

# A swatch that is changed while its card is made has that card until the next run.
changed_meanwhile() {
    local folder=$work/changed
    one_swatch "$folder"
    stand_in card <<<'#!/bin/sh
"$PROGRAM" && sleep 0.02 && touch "$FOLDER/tartan.swatch"'
    PROGRAM=$program FOLDER=$folder try tools/archive --card "$work/bin/card" "$folder"
    check "a swatch is changed while its card is made" says 0 '1 swatches: 1 cards made, 0 were there already'
    try archive "$folder"
    check "its card is made again" says 0 '1 swatches: 1 cards made, 0 were there already'
    try archive "$folder"
    check "but only once" says 0 '1 swatches: 0 cards made, 1 were there already'
}

# The program, but from the 11th call on it stops in the middle of a card, until it is told to go on.
slow_program() {
    stand_in card <<<'#!/usr/bin/env bash
text=$("$PROGRAM"; echo .)
echo >>"$STOP/calls"
if [[ $(wc -l <"$STOP/calls") -gt 10 ]]; then
    printf "%s" "${text:0:30}"
    : >"$STOP/half"
    until [[ -e $STOP/release ]]; do sleep 0.05; done
    exit 1
fi
printf "%s" "${text%.}"'
}

# stopped NAME SIGNAL: everything is sent the signal when a card is half printed; the next run makes the others.
stopped() {
    local name=$1 folder=$work/stopped run
    export STOP=$work/stop PROGRAM=$program
    make_archive "$folder" 40
    mkdir "$STOP"
    set -m
    tools/archive --card "$work/bin/card" -j 2 "$folder" >"$work/said" 2>&1 &
    run=$!
    set +m
    until [[ -e $STOP/half ]] || ! kill -0 "$run"; do sleep 0.05; done
    kill "-$2" -- "-$run"
    wait "$run" 2>/dev/null
    : >"$STOP/release"
    check "$name: every card is whole, but not all are there" only_whole "$folder" 39
    try archive "$folder"
    check "$name: the next run ends as if nothing had happened" grep -qFx "  $torn: 3: $sentence_3" "$work/out"
    check "$name: it makes only the others" test "$(sed -nE 's/^40 swatches: ([0-9]+) cards made.*/\1/p' "$work/out")" -le 31
    check "$name: then all is right" all_right "$folder"
    rm -r "$folder" "$STOP"
    unset STOP PROGRAM
}

interruptions() {
    slow_program
    stopped "Ctrl-C" INT
    stopped "killed" KILL
}

# sent NAME OPTION..: the cards are made there and come back.
sent() {
    local name=$1 folder=$work/sent
    shift
    make_archive "$folder" 24
    try tools/archive "$@" "$folder"
    check "$name: the report is the same" \
        says 1 '24 swatches: 23 cards made, 0 were there already' '1 turned down:' "  $torn: 3: $sentence_3"
    check "$name: so are the cards" all_right "$folder"
    rm -r "$folder"
}

# A server of this machine's own, for this test only, with its own keys; 1 if there is none, or it lets nobody in.
start_server() {
    local sshd port
    sshd=$(PATH=$PATH:/usr/sbin:/usr/local/sbin command -v sshd) && command -v ssh-keygen ssh rsync >/dev/null || return
    mkdir "$work/server"
    ssh-keygen -q -t ed25519 -N '' -f "$work/server/host" && ssh-keygen -q -t ed25519 -N '' -f "$work/server/key" || return
    for port in 32022 41022 53022; do
        printf '%s\n' "ListenAddress 127.0.0.1:$port" "HostKey $work/server/host" 'PidFile none' "AuthorizedKeysFile $work/server/key.pub" \
            'StrictModes no' 'UsePAM no' 'PasswordAuthentication no' >"$work/server/sshd_config"
        printf '%s\n' 'Host loom' 'HostName 127.0.0.1' "Port $port" "IdentityFile $work/server/key" 'IdentitiesOnly yes' 'BatchMode yes' \
            "UserKnownHostsFile $work/server/known" 'StrictHostKeyChecking no' 'LogLevel ERROR' >"$work/server/config"
        "$sshd" -D -e -f "$work/server/sshd_config" 2>"$work/server/log" &
        server=$!
        until grep -q 'Server listening' "$work/server/log" || ! kill -0 "$server" 2>/dev/null; do sleep 0.05; done
        ! ssh -F "$work/server/config" loom true 2>/dev/null || return 0
        kill "$server" 2>/dev/null
        wait "$server" 2>/dev/null
    done
    return 1
}

several_machines() {
    local server
    sent "this machine as a login" --card "$program" -S 2/:
    if start_server; then
        sent "over ssh" --card "$program" -S "2/ssh -F $work/server/config loom"
        check "over ssh: by the key" grep -q 'Accepted publickey' "$work/server/log"
        kill "$server"
        wait "$server" 2>/dev/null
    else
        echo "not run: the archive over ssh, no server can be started here, or rsync is not installed"
    fi
}

wrong_use() {
    local folder=$work/wrong
    one_swatch "$folder"
    try tools/archive
    check "no folder" ends 2 'a folder'
    try archive "$work/none"
    check "no such folder" ends 2 'there is no folder'
    try archive --quick "$folder"
    check "no such option" ends 2 '--help'
    try archive "$folder" "$folder" "$folder"
    check "three folders" ends 2 '--help'
    try archive --jobs
    check "an option without its value" ends 2 '--jobs wants a value'
    try tools/archive --card "$work/none" "$folder"
    check "no such program" ends 2 'there is no program'
    stand_in parallel <<<'#!/bin/sh'
    PATH=$work/bin:$PATH try archive "$folder"
    rm "$work/bin/parallel"
    check "another parallel than GNU's" ends 2 'GNU parallel is not installed'
    cp "$folder/tartan.swatch" "$folder/tartan.txt"
    try archive "$folder"
    check "two swatches for one card" ends 2 'tartan.txt would have the card of another swatch'
    check "none of these made a card" test "$(cards_in "$folder")" -eq 0
    mkdir "$work/empty"
    try archive "$work/empty"
    check "no swatch in the folder" ends 2 'there is no .swatch'
    try tools/archive --help
    check "help" gives - 'tools/archive [OPTION..] FOLDER [CARDS]'
}

# The program that is taken when none is named.
default_programs() {
    one_swatch "$work/default"
    KISTROVU_CARD=$program try tools/archive "$work/default"
    check "the program of KISTROVU_CARD" says 0 '1 swatches: 1 cards made, 0 were there already'
    rm "$work/default/tartan.card"
    mkdir "$work/path"
    ln -s "$program" "$work/path/card"
    PATH=$work/path:$PATH try tools/archive --bar "$work/default"
    check "the program on the PATH" says 0 '1 swatches: 1 cards made, 0 were there already'
    check "a bar if asked for" grep -q '100%' "$work/err"
}

if parallel --version 2>/dev/null | grep -q '^GNU parallel'; then
    export PARALLEL_HOME=$work/parallel
    mkdir "$PARALLEL_HOME"
    echo "tools/archive"
    first_run "$work/archive"
    changes "$work/archive"
    stored
    unreadable
    unread_folder
    bad_programs
    changed_meanwhile
    interruptions
    several_machines
    wrong_use
    default_programs
else
    echo "not run: the archive, GNU parallel is not installed"
fi
