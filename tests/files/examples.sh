# Each example says what stands beside it, with as few frames as there may be and with as many.
# A file in memory, where there is such a folder: thousands of syncs of a disk would take long.
[ ! -w /dev/shm ] || export TMPDIR=/dev/shm
. "$(dirname "$0")/common.sh"

examples=$here/../../examples

# Runs an example over a chip, and wants its output: says NAME CHIP WORDS..
says() {
    name=$1
    shift
    ends 0 "" run "$@" <"$examples/$name.ipl"
    wants "$name says what stands in $name.out, by $*" cmp -s said "$examples/$name.out"
}

# Runs an example that is a program which says a script: so many commands are done, and else it says what stands beside it.
says_but_ok() {
    name=$1 count=$2
    shift 2
    "$examples/$name" >script
    ends 0 "" run "$@" <script
    wants "$name: $count commands are done, by $*" [ "$(grep -cx ok said)" -eq $count ]
    grep -vx ok said | cmp -s - "$examples/$name.out" || fail "$name says what stands in $name.out, by $*"
}

for frames in 2 16 64; do
    for name in batch first refusals sessions; do
        says $name ram:5 --format --frames $frames
        says $name file:5:chip --format --frames $frames
    done
    says meter file:5:chip --format --frames $frames
    says meter_later file:5:chip --frames $frames
    says_but_ok long_session 172 file:6:longer --format --frames $frames
    says_but_ok readings 4000 ram:5 --format --frames $frames
done
# A thousand commits wait for four thousand syncs, so once is enough.
says_but_ok readings 4000 file:5:chip --format
ends 0 "" serial ram:5 <"$examples/serial.ipl"
wants "the view of serial" cmp -s said "$examples/serial.out"
echo "eight examples with 2, 16 and 64 frames, in memory and in a file, and a serial view"
