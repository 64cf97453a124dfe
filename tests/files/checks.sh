# A check says how many records a chip holds, or notes the first thing that is wrong, and no byte of the file is written.
[ ! -w /dev/shm ] || export TMPDIR=/dev/shm
. "$(dirname "$0")/common.sh"

old=$here/../old_chips
chip_map=$here/../../tools/chip_map

# Wants that a chip of so many places in a file is checked so: checks STATUS SAYS NOTE PLACES FILE
checks() {
    cp "$5" before
    ends "$1" "$3" check "file:$4:$5"
    [ "$(cat said)" = "$2" ] || fail "$5: said '$(cat said)' and not '$2'"
    wants "a check writes nothing to $5" cmp -s "$5" before
}

# And as the second reader counts them: holds RECORDS PLACES FILE
holds() {
    checks 0 "records $1" "" "$2" "$3"
    [ "$(($("$chip_map" --records "$3" | wc -l) - 1))" -eq "$1" ] || fail "chip_map finds other records on $3"
}

# A file that isn't there is made, and isn't formatted.
ends 4 "ipl: not formatted" check file:5:chip
is_chip chip 5
ends 4 "ipl: geometry" check ram:4
ends 0 "" format file:5:chip
holds 0 5 chip
commit_of 6869 | ends 0 "" run file:5:chip
holds 1 5 chip
printf 'begin 0\ndel 0 5\nput 0 6 -\nput 0 7 61\ncommit 0\nbegin 1\nput 1 8 62\n' | ends 0 "" run file:5:chip
holds 2 5 chip
"$program" check file:5:chip >/dev/full 2>noted
wants "a full output is told" [ $? -eq 7 ]

# A byte of a base sector is changed: the worked case of CASES.md.
ends 0 "" format file:5:chip
(cat "$here/../../examples/first.ipl" && echo 'merge 0') | ends 0 "" run file:5:chip
printf j | dd of=chip bs=1 seek=548 conv=notrunc 2>/dev/null
checks 4 "" "ipl: damaged place 0 sector 1 stored 902fe30c computed 196a645e" 5 chip
# And one of the status header, which then doesn't count.
cp chip rotten
printf '\377' | dd of=rotten bs=1 seek=$((2 * 131072 + 40)) conv=notrunc 2>/dev/null
checks 4 "" "ipl: not formatted" 5 rotten

chips=0
for packed in "$old"/version_[12]/*.list.gz; do
    name=$(basename "$(dirname "$packed")")/$(basename "$packed" .list.gz)
    gzip -dc "$old/$name.gz" >file || fail "no chip $name"
    records=$(($(gzip -dc "$packed" | wc -l) - 1))
    holds "$records" $(($(wc -c <file) / 131072)) file
    chips=$((chips + 1))
done
wants "there are ten chips of each version" [ $chips -eq 20 ]
echo "chips of no, one and two records, a spoiled page, and $chips chips of before, checked and left as they were"
