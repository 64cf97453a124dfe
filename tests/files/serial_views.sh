# A serial view leaves the chip's file as it is, and needs none that can be had.
. "$(dirname "$0")/common.sh"

script=$here/../../examples/serial.ipl
view=$here/../../examples/serial.out
"$program" format file:5:chip >/dev/null || fail "no format"
commit_of 61 | ends 0 "" run file:5:chip || exit 1
cksum chip >before
for chip in ram:5 file:5:chip file:5:nowhere/chip; do
    ends 0 "" serial $chip <"$script"
    wants "$chip: the view of the example" cmp -s said "$view"
done
ends 6 "ipl: script failed" serial file:5:chip <&-
ends 4 "ipl: geometry" serial file:4:new <"$script"
cksum chip >after
wants "the chip is as it was" cmp -s before after
wants "no file is made for four places" [ ! -e new ]
lists file:5:chip "5 61
end"
echo "one script over a chip in memory, one in a file, and none"
