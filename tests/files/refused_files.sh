# What is no chip's file stays as it is.
. "$(dirname "$0")/common.sh"

head -c 1000 /dev/zero >short
head -c $((5 * 131072 + 1)) /dev/zero >long
: >empty
mkdir folder
cksum short long empty >before
for name in short long empty folder nowhere/chip short/chip; do
    ends 3 "ipl: chip read failed" run file:5:$name
    ends 3 "ipl: chip write failed" run file:5:$name --format
    ends 3 "ipl: chip write failed" format file:5:$name
done
cksum short long empty >after
wants "the files are as they were" cmp -s before after
wants "nothing was made" [ "$(ls)" = "after
before
empty
folder
long
noted
said
short" ]
echo "files of three other lengths, a folder, and paths that lead nowhere"
