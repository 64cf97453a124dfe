# The laws of ports/c/driver_test.c over each kind of part: a line each, as tests/linux/expected has it.
# What a driver met is counted too; flips and pages are those of the simulator.
try() { # try CASE CHIP OPTIONS..
    name=$1
    shift
    try_driver "$@" test 3 >/tmp/said 2>/tmp/told
    echo "$name: $(head -n 1 /tmp/said); $(sed -n 's/^chip: \([a-z-]*\),.* places of \([0-9]*\) blocks.*/\1, \2/p' /tmp/told)"
    sed -n '2,$p' /tmp/said | sed "s/^/$name (where): /"
    sed "s/^/$name (told): /" /tmp/told
}
nand() { # nand CASE 'WORDS OF THE SIMULATOR' OPTIONS..
    name=$1
    words=$2
    shift 2
    # shellcheck disable=SC2086
    sim $words
    try "$name" "mtd:$D" "$@"
    unsim
}
refused() { # refused CASE CHIP OPTIONS..
    name=$1
    shift
    echo "$name: $(try_driver "$@" test 3 2>&1 | sed 's/^[^ ]*: //')"
}

need mtdram
try mtdram "mtd:/dev/mtd$(part mtdram)" --places 5
rmmod mtdram
for mapping in rising-pages pages rising-quarters quarters; do nand "hamming $mapping" '' --mapping $mapping --places 5; done
nand 'hamming quarters one by one' '' --mapping quarters --no-joins --places 5
nand 'bch 4' bch=4 --mapping rising-quarters --places 5
nand 'bch 8' bch=8 --places 5
nand 'bad blocks' badblocks=0,3,7 --mapping quarters --places 5
nand 'a flip' bitflips=1 --mapping quarters --places 5
nand 'forty flips, read again' 'bch=8 bitflips=40' --read-again 5 --places 5
nand 'a weak block, kept' weakblocks=4:1 --mapping quarters --places 8
nand 'a weak block, kept, five blocks' weakblocks=6:1 --places 5
nand 'a weak block, failed' weakblocks=4:1 --fail-erases --mapping quarters --places 5
nand 'a weak page' weakpages=300:1 --mapping quarters --places 5
nand 'a grave page' gravepages=300:8 --mapping quarters --places 5

# A part whose pages are programmed whole.
sim_of 0xec,0xf1,0x00,0x95,0x41,0xec
try 'no subpages' "mtd:$D" --places 5
refused 'no subpages, by quarters' "mtd:$D" --mapping quarters
refused 'no subpages, by rising quarters' "mtd:$D" --mapping rising-quarters
ipl_mtd format "mtd:$D" --places 300 2>&1 | sed 's/^[^ ]* [^ ]*: /too many places: /'
unsim
sim_of 0x98,0x75,0xff,0xff
try 'pages of 512 bytes' "mtd:$D" --places 5
unsim
sim_of 0x2c,0xdc,0x90,0xa6
try 'pages of 4,096 bytes' "mtd:$D" --places 5
refused 'pages of 4,096 bytes, by quarters' "mtd:$D" --mapping quarters
unsim
