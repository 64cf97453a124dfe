# A link to a chip's file is the file; no file is made through a link that leads nowhere.
. "$(dirname "$0")/common.sh"

mkdir folder
"$program" format file:5:folder/chip >/dev/null || fail "no format"
ln -s folder/chip link
ln -s folder by_folder
commit_of 61 | ends 0 "" run file:5:link || exit 1
lists file:5:folder/chip "5 61
end"
lists file:5:by_folder/chip "5 61
end"
ends 0 "" format file:5:link
wants "the link stays" [ -L link ]
lists file:5:folder/chip end
ends 0 "" format file:5:by_folder/new
is_chip folder/new 5

ln -s nowhere dangling
ends 3 "ipl: chip write failed" format file:5:dangling
ends 3 "ipl: chip read failed" run file:5:dangling
wants "the link stays, and nothing is made" [ -L dangling -a ! -e nowhere -a ! -e dangling.ipl-new ]
echo "a link to a file, to its folder, and to nothing"
