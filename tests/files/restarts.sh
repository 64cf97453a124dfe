# A restart in a script drops the open sessions and keeps what is committed, as the next run does; it may stand anywhere.
. "$(dirname "$0")/common.sh"

cat >script <<'END'
restart
begin 0
begin 31
put 0 5 61
put 31 64 62
commit 0
put 31 65 63
restart
commit 31
get 0 5
begin 0
get 0 5
get 0 64
put 0 5 64
restart
restart
list 0 959
begin 0
put 0 64 65
commit 0
restart
list 0 959
END
cat >wanted <<'END'
ok
ok
ok
ok
ok
ok
ok
ok
err 6 notopen
err 6 notopen
ok
value 61
none
ok
ok
ok
5 61
end
ok
ok
ok
ok
5 61
64 65
end
END
"$program" format file:5:chip >/dev/null || fail "no format"
ends 0 "" run file:5:chip <script
wants "the replies of the script" cmp -s said wanted
lists file:5:chip "5 61
64 65
end"

# The log of the unit is filled, and each restart closes it: a commit after it merges the unit.
for value in $(seq 1 40); do
    commit_of "$(printf %02x "$value")"
    [ $((value % 7)) -ne 0 ] || echo restart
done >script
ends 0 "" run file:5:chip --frames 2 <script
wants "each command is done" [ "$(grep -cx ok said)" -eq 125 ]
lists file:5:chip "5 28
64 65
end"
echo "restarts with and without open sessions, side by side, and between commits"
