# What comes of parts that fail, over the store: a line each, as tests/linux/expected has it. Each begins with a format with four spare
# places, and has three runs of 200 commits; where a run ends before, that is said, and the next one begins.
runs() { # runs CASE OPTIONS..
    name=$1
    shift
    try_log "mtd:$D" --places 20 "$@" format 4 2>/dev/null | sed 's/^log: //' >/tmp/line
    for run in 1 2 3; do
        try_log "mtd:$D" --places 20 "$@" log 3000 5 200 2>/tmp/told >/tmp/said
        sed -n -e 's/^log: found .*, \([0-9]*\) wrong/\1 wrong/p' -e 's/^log: \(.*\)/\1/p' /tmp/said | sed '/^found/d' >>/tmp/line
        grep 'not mended' /tmp/told | sed "s/^/$name (told): /"
    done
    try_log "mtd:$D" --places 20 "$@" check 2>/dev/null | sed 's/^log: //' >>/tmp/line
    echo "$name: $(tr '\n' ';' </tmp/line)"
}
nand() { # nand CASE 'WORDS OF THE SIMULATOR' OPTIONS..
    name=$1
    words=$2
    shift 2
    # shellcheck disable=SC2086
    sim $words
    runs "$name" "$@"
    unsim
}
Q='--mapping quarters'
nand 'weak blocks, kept' weakblocks=1:5,14:3 $Q
nand 'weak blocks, kept, five blocks' weakblocks=5:5,71:3
nand 'weak blocks, failed' weakblocks=1:5,14:3 $Q --fail-erases
sim weakblocks=0:3,1:5,14:3,15:4,16:3,17:3
runs 'six weak blocks, four spare' $Q
# It doesn't open to be written any more; to be read it does, as often as it is asked.
for turn in first second; do
    # shellcheck disable=SC2086
    ipl_mtd list "mtd:$D" --places 20 $Q >/tmp/$turn 2>&1
    echo "status $?" >>/tmp/$turn
done
counted=$(sed -n 's/^check: done (0), \([0-9]*\) records$/\1/p' /tmp/line)
[ "$(grep -c '^[0-9]* [0-9a-f-]*$' /tmp/first)" = "$counted" ] && cmp -s /tmp/first /tmp/second \
    && echo "six weak blocks, listed: as many records as a check counts, twice|$(tail -n 2 /tmp/first | tr '\n' '|')"
unsim
nand 'a weak page, kept and opened again' weakpages=900:1 $Q --reopen 5
nand 'a weak page, failed' weakpages=900:1 $Q --fail-erases
nand 'a grave page of a log' gravepages=125:20 $Q
nand 'forty flips, read again' 'bch=8 bitflips=40' $Q --read-again 5

# Bits beyond the ECC in one sector of each kind, after a format and 110 commits in two runs; then all is checked, opened and judged.
Q='--mapping quarters --places 8'
for kind in 'unit header:1' 'status header:2' base:4 log:5 commit:6; do
    sim
    # shellcheck disable=SC2086
    {
        try_log "mtd:$D" $Q format 0
        try_log "mtd:$D" $Q log 2000 5 100
        try_log "mtd:$D" $Q log 2000 5 10
    } >/tmp/said 2>&1
    rot "$D" "${kind#*:}" 8 || echo "rot: not done"
    # shellcheck disable=SC2086
    {
        try_log "mtd:$D" $Q check
        try_log "mtd:$D" $Q log 2000 5 0
    } 2>/dev/null >/tmp/said
    echo "rot of a ${kind%:*}: $(sed 's/^log: //' /tmp/said | tr '\n' ';')"
    unsim
done
