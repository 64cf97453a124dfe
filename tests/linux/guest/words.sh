# The examples of ports/c over parts, and the words of ipl_mtd.
said_of() { # said_of CASE COMMAND..: what it says, in a line, and its status
    name=$1
    shift
    "$@" >/tmp/said 2>&1
    status=$?
    echo "$name: $(tr '\n' '|' </tmp/said)status $status"
}
need mtdram
sim
for chip in mtd:/dev/mtd$(part mtdram) "mtd:$D"; do
    for example in first_boot logger power_fail; do
        CHIP=$chip example_$example >/tmp/said && cmp -s /tmp/said /$example.out && echo "example $example: as $example.out has it" \
            || { echo "example $example: differs"; head -n 3 /tmp/said; }
    done
done
said_of format ipl_mtd format "mtd:$D" --spares 20
said_of 'put three' sh -c "printf '5 6869\n6 -\n100000 00ff\n' | ipl_mtd put mtd:$D"
said_of facts ipl_mtd facts "mtd:$D"
said_of get ipl_mtd get "mtd:$D" 5
said_of 'get nothing' ipl_mtd get "mtd:$D" 7
said_of list ipl_mtd list "mtd:$D"
said_of 'list of a range' ipl_mtd list "mtd:$D" 6 99999
said_of 'list writes nothing' sh -c "ipl_mtd list mtd:$D --tell 2>&1 | grep -o '[0-9]* programs in [0-9]*, [0-9]* erases, [0-9]* barriers'"
said_of 'list of what nobody may write' ipl_mtd list "mtd:${D}ro" 6
said_of 'get of it' ipl_mtd get "mtd:${D}ro" 5
said_of 'put to it' sh -c "echo '7 00' | ipl_mtd put mtd:${D}ro"
said_of del ipl_mtd del "mtd:$D" 6
said_of check ipl_mtd check "mtd:$D"
said_of 'a line that is none' sh -c "printf '5 686\n' | ipl_mtd put mtd:$D"
said_of 'a name past the last' sh -c "printf '999999 00\n' | ipl_mtd put mtd:$D"
said_of 'no word' ipl_mtd script "mtd:$D" 2>&1 | grep -c usage | sed 's/^/no word: usage /'
said_of 'no part' ipl_mtd check mtd:/dev/null
said_of 'no node' ipl_mtd check mtd:/dev/mtd99
said_of 'no chip' ipl_mtd check file:5:/tmp/x
said_of 'other places' ipl_mtd check "mtd:$D" --places 50
said_of 'other mapping' ipl_mtd check "mtd:$D" --mapping quarters
unsim
sim overridesize=6
{ ipl_mtd format "mtd:$D" --mapping quarters && echo '5 6869' | ipl_mtd put "mtd:$D" --mapping quarters; } >/dev/null
ipl_mtd copy "mtd:$D" --mapping quarters --places 20 >/tmp/chip 2>/tmp/told
dd if="$D" bs=131072 count=20 2>/dev/null | cmp -s - /tmp/chip && echo "a copy: the bytes of the part, of $(sed -n 's/places \([0-9]*\), .* read 0$/\1/p' /tmp/told) places"
rm /tmp/chip
mkfifo /tmp/lines
ipl_mtd put "mtd:$D" --mapping quarters </tmp/lines >/tmp/first &
exec 3>/tmp/lines
echo '9 01' >&3
while ! grep -q ok /tmp/first; do sleep 1; done
said_of 'a second program' ipl_mtd check "mtd:$D"
exec 3>&-
wait
said_of 'after it' ipl_mtd get "mtd:$D" 9 --mapping quarters
