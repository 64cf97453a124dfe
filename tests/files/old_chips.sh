# Chips that the program made when it wrote version 1 of the formats, and version 2, list what they listed then. Once each
# of their units is written and merged they list that with what was written, in that run and in the next.
# Files in memory, where there is such a folder: hundreds of syncs of a disk would take long.
[ ! -w /dev/shm ] || export TMPDIR=/dev/shm
. "$(dirname "$0")/common.sh"

old=$here/../old_chips

# A script that writes each unit: three values, and a delete of a listed record where there is another than these, in two
# transactions with a merge between them; and a value of a session that stays open: writes_of LISTING UNITS
writes_of() {
    awk -v units="$2" '
        { unit = int($1 / 960); at = $1 % 960 }
        NF == 2 && at > 0 && at != 500 && at != 501 && at < 959 && !(unit in listed) { listed[unit] = $1 }
        END {
            for (i = 0; i < 108; i++) longest = longest "6c"
            print "begin 1"
            for (unit = 0; unit < units; unit++) {
                first = 960 * unit
                print "begin 0\nput 0", first, "-\nput 0", first + 959, longest
                print "put 1", first + 501, "6d"
                print "del 0", (unit in listed ? listed[unit] : first + 1)
                print "commit 0\nmerge", unit
                print "begin 0\nput 0", first + 500, "6e\ncommit 0"
            }
        }' "$1"
}

# A listing after a script of which session 0 is committed and no other: written LISTING SCRIPT
written() {
    awk '$1 ~ /^[0-9]+$/ { value[$1] = $2 }
        $1 == "put" && $2 == 0 { value[$3] = $4 }
        $1 == "del" && $2 == 0 { delete value[$3] }
        END { for (name in value) print name, value[name] }' "$1" "$2" | sort -n
    echo end
}

# Wants that a chip says a listing at the end of a script whose other lines are done: lists_as LISTING SCRIPT WHEN WORDS..
lists_as() {
    listing=$1 script=$2 when=$3
    shift 3
    ends 0 "" run "$chip" "$@" <"$script"
    wants "$name $when: each command is done" [ "$(grep -cx ok said)" -eq $(($(wc -l <"$script") - 1)) ]
    grep -vx ok said >listed
    cmp -s listed "$listing" || fail "$name $when lists otherwise: $(diff listed "$listing" | sed -n 2p | cut -c 1-80)"
}

chips=0
units=0
for packed in "$old"/version_[12]/*.list.gz; do
    name=$(basename "$(dirname "$packed")")/$(basename "$packed" .list.gz)
    gzip -dc "$packed" >listing || fail "no listing of $name"
    gzip -dc "$old/$name.gz" >file || fail "no chip $name"
    places=$(($(wc -c <file) / 131072))
    chip=file:$places:file
    echo "list 0 $((960 * (places - 4) - 1))" >list
    lists_as listing list opened

    writes_of listing $((places - 4)) >writes
    written listing writes >wanted
    cat writes list >script
    lists_as wanted script written
    lists_as wanted list "opened again" --frames 2
    chips=$((chips + 1))
    units=$((units + places - 4))
done
wants "there are ten chips of each version" [ $chips -eq 20 ]
echo "$chips chips of before with $units units, listed, each unit written and merged, and listed again"
