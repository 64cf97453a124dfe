# What a run asks of the chip's file: each erase begins where a place does and each program where a sector does, and a commit
# is answered only once all that was written is synced.
. "$(dirname "$0")/common.sh"

command -v strace >/dev/null || skip "there is no strace"
strace -o trace true 2>/dev/null || skip "strace can't trace here"

"$program" format file:5:chip >/dev/null || fail "no format"
commit_of 61 >script
commit_of 62 >>script
echo 'merge 0' >>script
strace -s 8 -o trace -e trace=lseek,write,pwrite64,fsync,fdatasync,fcntl "$program" run file:5:chip <script >/dev/null ||
    fail "no run"
number=$(sed -n 's/^fcntl([0-9]*, F_DUPFD_CLOEXEC.*= \([0-9]*\)$/\1/p' trace | head -n 1)

# The trace as lines: erase PLACE, program SECTOR, sync, say TEXT, or what is none of these.
awk -v file="$number" '
    { count = $NF }
    $0 ~ "^lseek\\(" file "," { at = count }
    $0 ~ "^write\\(" file "," {
        if (count == 131072 && at % 131072 == 0) print "erase", at / 131072
        else if (count == 512 && at % 512 == 0) print "program", at / 512
        else print "writes", count, "at", at
        at += count
    }
    $0 ~ "^(fsync|fdatasync)\\(" file "\\)" { print "sync" }
    /^write\(1,/ { print "say", $0 }
' trace >calls
wants "all writes are erases and programs" [ "$(grep -c '^writes' calls)" -eq 0 ]
wants "places are erased" [ "$(grep -c '^erase' calls)" -ge 3 ]
wants "sectors are programmed" [ "$(grep -c '^program' calls)" -ge 6 ]
# The replies to the two commits and to the merge are the third, the sixth and the seventh.
for reply in 3 6 7; do
    last=$(awk -v reply="$reply" '/^say/ && ++said == reply { exit } !/^say/ { last = $1 } END { print last }' calls)
    wants "before reply $reply all is synced" [ "$last" = sync ]
done
lists file:5:chip "5 62
end"
echo "erases and programs where they belong, and a sync before the replies to two commits and a merge"
