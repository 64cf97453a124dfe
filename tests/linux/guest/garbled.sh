# Three weak blocks, whose erase fails and leaves what they held, or garbles it; and a weak page besides. The driver keeps what they held.
SIM=nandkeep
one() { # one CASE MAPPING 'WORDS OF THE SIMULATOR'
    # shellcheck disable=SC2086
    sim keep=0x10000000 fresh=1 overridesize=8 $3
    try_log "mtd:$D" --mapping "$2" --places 20 format 4 2>/dev/null | sed 's/^log: //' >/tmp/line
    for run in 1 2 3 4; do
        try_log "mtd:$D" --mapping "$2" --places 20 --reopen 5 log 3000 5 400 2>/tmp/told | sed -n -e 's/^log: found .*, \([0-9]*\) wrong/\1 wrong/p' \
            -e 's/^log: \(.* answered\), .*/\1/p' >>/tmp/line
        grep 'not mended' /tmp/told | sed "s/^/$1 (told): /"
    done
    try_log "mtd:$D" --mapping "$2" --places 20 check 2>/dev/null | sed 's/^log: //' >>/tmp/line
    echo "$1: $(tr '\n' ';' </tmp/line)"
    unsim
}
one 'one block, garbled' quarters 'weakblocks=1:5,14:3,15:2 weak_how=2'
one 'one block, left' quarters 'weakblocks=1:5,14:3,15:2 weak_how=1'
one 'two blocks' rising-quarters 'weakblocks=2:5,29:3 weakpages=2100:1 weak_how=2'
one 'five blocks' rising-pages 'weakblocks=5:5,71:3 weakpages=4800:1 weak_how=2 nosub=1'
