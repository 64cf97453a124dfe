# The driver over UBI: its laws, and the store over parts whose pages and blocks fail below it.
need ubi
on() { # on 'WORDS OF THE SIMULATOR' [ID]
    # shellcheck disable=SC2086
    sim_of "${2:-0x20,0xf1,0x00,0x15}" overridesize=7 $1
    ubi_on
}
off() {
    ubi_off
    unsim
}
runs() { # runs CASE
    try_log "ubi:$U" --places 12 format 0 2>/dev/null | sed 's/^log: //' >/tmp/line
    for run in 1 2; do
        try_log "ubi:$U" --places 12 log 3000 5 300 2>/tmp/told | sed -n -e 's/^log: found .*, \([0-9]*\) wrong/\1 wrong/p' \
            -e 's/^log: \(.*\)/\1/p' | sed '/^found/d' >>/tmp/line
        sed "s/^/$1 (told): /" /tmp/told
    done
    try_log "ubi:$U" --places 12 check 2>/dev/null | sed 's/^log: //' >>/tmp/line
    echo "$1: $(tr '\n' ';' </tmp/line)"
}
on ''
try_driver "ubi:$U" --places 5 test 3 2>/tmp/told | sed 's/^/ubi: /'
sed 's/^/ubi (told): /' /tmp/told
echo "the part below: $(ipl_mtd format "mtd:$D" 2>&1 | sed 's/^[^ ]* [^ ]* //')"
off
on '' 0xec,0xf1,0x00,0x95,0x41,0xec
runs 'ubi, no subpages'
off
on 'weakpages=2300:1 weakblocks=50:1'
runs 'ubi, a weak page and a weak block'
echo "ubi, bad blocks: $(cat /sys/class/ubi/ubi0/bad_peb_count)"
off
need mtdram
echo "ubi of no volume: $(ipl_mtd check ubi:/dev/mtd$(part mtdram) 2>&1 | sed 's/^[^ ]* [^ ]* //')"
