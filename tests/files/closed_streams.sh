# A closed stream is the stream's own fault, and nothing of it gets into the chip's file: all eight ways to close standard
# input, output and error, over a chip in memory and one in a file.
. "$(dirname "$0")/common.sh"

# Runs the program with the streams closed that are named, of 0, 1 and 2: closing STREAMS WORDS..
closing() {
    streams=$1
    shift
    case $streams in
    -) "$program" "$@" <script >said 2>noted ;;
    0) "$program" "$@" <&- >said 2>noted ;;
    1) "$program" "$@" <script >&- 2>noted ;;
    2) "$program" "$@" <script >said 2>&- ;;
    01) "$program" "$@" <&- >&- 2>noted ;;
    02) "$program" "$@" <&- >said 2>&- ;;
    12) "$program" "$@" <script >&- 2>&- ;;
    012) "$program" "$@" <&- >&- 2>&- ;;
    esac
}

# What a run must end with: it reads before it says.
end_of_run() {
    case $1 in
    *0*) wanted=6 note="ipl: script failed" ;;
    *1*) wanted=7 note="ipl: output failed" ;;
    *) wanted=0 note= ;;
    esac
}

# The same of a format, which reads nothing.
end_of_format() {
    case $1 in
    *1*) wanted=7 note="ipl: output failed" ;;
    *) wanted=0 note= ;;
    esac
}

# Tries the words: tries STREAMS WORDS..
tries() {
    : >noted
    closing "$@"
    got=$?
    case $1 in
    *2*) note= ;;
    esac
    is_end $got "$(cat noted)" "closed $*"
}

commit_of 68 >script
"$program" format file:5:formatted >/dev/null || fail "no format"
# An opening writes a new status place, and a commit its record too.
cp formatted opened
"$program" run file:5:opened </dev/null >/dev/null || fail "no opening"
cp formatted kept
commit_of 68 | "$program" run file:5:kept >/dev/null || fail "no run"
wants "a commit is seen in the chip's file" [ "$(cksum <opened)" != "$(cksum <kept)" ]
for streams in - 0 1 2 01 02 12 012; do
    end_of_run $streams
    tries $streams run ram:5 --format
    # What is to be closed can't change the chip but by the commit, which is answered only where all is open to it.
    cp formatted chip
    end_of_run $streams
    tries $streams run file:5:chip
    after=opened
    [ $wanted -eq 0 ] && after=kept
    wants "closed $streams, a run leaves the chip as $after" cmp -s chip $after

    end_of_format $streams
    tries $streams format file:5:chip
    wants "closed $streams, a format leaves a formatted chip" cmp -s chip formatted
    rm -f chip
    end_of_format $streams
    tries $streams format file:5:chip
    wants "closed $streams, a format makes a formatted chip" cmp -s chip formatted

    # What is noted gets into no file.
    rm -f new
    wanted=4 note="ipl: not formatted"
    tries $streams run file:5:new
    is_chip new 5
    wants "closed $streams, a new chip is blank" [ -z "$(tr -d '\377' <new | head -c 1)" ]
done
echo "8 ways to close streams, each over a run in memory, a run, two formats and an opening of a new file"
