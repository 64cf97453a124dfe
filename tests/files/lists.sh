# A listing says all records of the pages that read, of a chip that no run needs to open, and no byte of the file is written.
[ ! -w /dev/shm ] || export TMPDIR=/dev/shm
. "$(dirname "$0")/common.sh"

old=$here/../old_chips

# Wants that a chip of so many places in a file is listed so: is_listed STATUS NOTE PLACES FILE WANTED
is_listed() {
    cp "$4" before
    ends "$1" "$2" list "file:$3:$4"
    wants "$4 is listed as it must be" cmp -s "$5" said
    wants "a listing writes nothing to $4" cmp -s "$4" before
}

# A file that isn't there is made, and isn't formatted.
ends 4 "ipl: not formatted" list file:5:chip
is_chip chip 5
ends 4 "ipl: geometry" list ram:4
: >nothing
is_listed 4 "ipl: not formatted" 5 chip nothing
ends 0 "" format file:5:chip
echo end >wanted
is_listed 0 "" 5 chip wanted
printf 'begin 0\nput 0 5 6869\nput 0 64 -\nput 0 959 00\ncommit 0\nbegin 1\nput 1 8 62\n' | ends 0 "" run file:5:chip
printf '5 6869\n64 -\n959 00\nend\n' >wanted
is_listed 0 "" 5 chip wanted
"$program" list file:5:chip >/dev/full 2>noted
wants "a full output is told" [ $? -eq 7 ]

# A file that may only be read, and one that a check has too.
chmod 444 chip
is_listed 0 "" 5 chip wanted
chmod 644 chip

# A byte of a base sector of page 0 is changed: the other pages are listed all the same.
echo 'merge 0' | ends 0 "" run file:5:chip
place=$("$here/../../tools/chip_map" --text chip | sed -n 's/^place \([0-9]*\): data of unit 0, .* current$/\1/p')
printf j | dd of=chip bs=1 seek=$((place * 131072 + 548)) conv=notrunc 2>/dev/null
printf '64 -\n959 00\nend\n' >wanted
cp chip before
"$program" list file:5:chip >said 2>noted
wants "a bad page is told" [ $? -eq 4 ]
wants "and which sector" grep -q "^ipl: damaged place $place sector 1 stored [0-9a-f]* computed [0-9a-f]*$" noted
wants "the other pages are listed" cmp -s wanted said
wants "and nothing is written" cmp -s chip before
printf 'list 0 63\n' | "$program" run file:5:chip >/dev/null 2>noted
wants "where a run ends" [ $? -eq 4 ]

chips=0
for packed in "$old"/version_[12]/*.list.gz; do
    name=$(basename "$(dirname "$packed")")/$(basename "$packed" .list.gz)
    gzip -dc "$old/$name.gz" >file || fail "no chip $name"
    gzip -dc "$packed" >wanted
    is_listed 0 "" $(($(wc -c <file) / 131072)) file wanted
    chips=$((chips + 1))
done
wants "there are ten chips of each version" [ $chips -eq 20 ]
echo "chips of no and three records, a bad page, and $chips chips of before, listed and left as they were"
