# A chip in a file has 960 names for each place but four: the last of them lasts, and the next one is refused.
. "$(dirname "$0")/common.sh"

for places in 5 6 41; do
    last=$((960 * (places - 4) - 1))
    "$program" format file:$places:chip$places >/dev/null || fail "no format"
    printf 'begin 0\nput 0 %d 61\nput 0 %d 62\nget 0 %d\ncommit 0\nlist %d %d\nlist 0 %d\n' \
        $last $((last + 1)) $((last + 1)) $last $last $((last + 1)) >script
    ends 0 "" run file:$places:chip$places <script
    [ "$(cat said)" = "ok
ok
err 3 badname
err 3 badname
ok
$last 61
end
err 3 badname" ] || fail "$places places: $(tr '\n' ';' <said)"
    echo "list 0 $last" >list
    ends 0 "" run file:$places:chip$places <list
    [ "$(cat said)" = "$last 61
end" ] || fail "$places places, later: $(tr '\n' ';' <said)"
done
echo "the last name and the next one on chips of three sizes"
