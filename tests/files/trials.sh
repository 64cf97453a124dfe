# A trial says the same summary in memory and in a file, for each number of frames; and the records that it counts are
# those that a later run lists, with the CRC-32 of their lines.
# A file in memory, where there is such a folder: thousands of syncs of a disk would take long.
[ ! -w /dev/shm ] || export TMPDIR=/dev/shm
. "$(dirname "$0")/common.sh"

crc_of() {
    python3 -c 'import sys, zlib; print("%08x" % zlib.crc32(sys.stdin.buffer.read()))'
}

echo 'no script is read' >script
for frames in 2 16 64; do
    ends 0 "" trial ram:8 --seed 7 --count 2000 --frames $frames <script
    [ "$(tr '\n' ' ' <said)" = "commands 2000 commits 129 aborts 65 conflicts 8 records 172 crc 1745f213 " ] ||
        fail "$frames frames: $(tr '\n' ';' <said)"
done

ends 0 "" trial file:8:chip --seed 7 --count 20000 <script
cp said summary
ends 0 "" trial ram:8 --seed 7 --count 20000 --frames 2 <script
cmp -s said summary || fail "in memory: $(tr '\n' ';' <said), in a file: $(tr '\n' ';' <summary)"
echo 'list 0 3839' >list
ends 0 "" run file:8:chip <list
[ "$(tail -n 1 said)" = end ] || fail "the list has no end"
sed '$d' said >records
[ "records $(wc -l <records)" = "$(sed -n 5p summary)" ] || fail "$(wc -l <records) records are listed: $(sed -n 5p summary)"
[ "crc $(crc_of <records)" = "$(sed -n 6p summary)" ] || fail "the lines have another sum: $(sed -n 6p summary)"
ends 2 - trial ram:8 --seed 7 <script
ends 4 - trial ram:4 --seed 7 --count 1 <script
echo "a summary with three numbers of frames, and 20,000 commands in a file whose records a later run lists"
