# The drivers with the compiler's sanitizers.
try() { # try CASE CHIP OPTIONS..
    name=$1
    shift
    try_driver_sanitized "$@" test 3 >/tmp/said 2>/tmp/told
    echo "$name: $(head -n 1 /tmp/said); $(sed -n 's/^chip: \([a-z-]*\),.* places of \([0-9]*\) blocks[,;].*/\1, \2/p' /tmp/told)"
    grep -v '^chip' /tmp/told
}
sim weakblocks=4:1
try 'mtd, a weak block' "mtd:$D" --mapping rising-quarters --places 5
unsim
need ubi
sim overridesize=7
ubi_on
try_log_sanitized "ubi:$U" --places 8 format 0 >/dev/null 2>&1
try_log_sanitized "ubi:$U" --places 8 --close log 500 5 60 2>&1 | grep -v -e chip: -e found
