# The checks of files that are named: sourced by smoke.sh, whose program, commands, inputs and words of checks they use.

folder=$work/files
# fresh: a folder with a table, one that is refused, and a file named out
fresh() {
  rm -rf "$folder"
  mkdir "$folder"
  cp "$work/point.csv" "$folder/my.csv"
  cp "$work/refused.csv" "$folder/bad.csv"
  echo old > "$folder/out"
}
within() { (cd "$folder" && "$@"); }
names() { within ls -A; }
state() { names && within stat -c %a out && within cat out; }
# is_so NAME COMMAND..: checks what is true after a run
is_so() { if "${@:2}"; then passed "$1"; else failed "$1: $(names | tr '\n' ' ')"; fi; }

# stays STATUS ERR NAME COMMAND..: a run in the folder that fails, and leaves the folder as it was
stays() {
  local before
  before=$(state)
  ends "$1" "" "$2" "$3" within "${@:4}"
  is_so "$3: all files are what they were" [ "$(state)" = "$before" ]
}
# gives NAME COMMAND..: a run in the folder after which out is the blob, and there is no other new name
gives() {
  local before
  before=$(names)
  ends 0 "" "" "$1" within "${@:2}"
  is_so "$1: out is the blob" cmp -s "$folder/out" "$work/point.twkb"
  is_so "$1: no other file is new" [ "$(names)" = "$before" ]
}

fresh
gives "pack of a file to a file that is there" "$program" pack my.csv -o out
same "$work/point.twkb" "pack of a file to standard output" within "$program" pack my.csv
same "$work/point.csv" "unpack of a file to standard output" within "$program" unpack out -o -
same "$work/point.twkb" "pack of - is pack of standard input" "$program" pack - -o - < "$work/point.csv"
ends 0 "" "" "unpack of a file to a new file" within "$program" unpack out --output=new.csv
is_so "the new file is the table" cmp -s "$folder/new.csv" "$work/point.csv"
is_so "and has the permissions of any new file" \
  [ "$(within stat -c %a new.csv)" = "$(touch "$work/any" && stat -c %a "$work/any")" ]
cp "$work/point.csv" "$folder/out"
gives "the input as output" "$program" pack out -o out
mv "$folder/my.csv" "$folder/-my.csv"
gives "a name that begins with a minus sign" "$program" pack -o out -- -my.csv

fresh
chmod 640 "$folder/out"
gives "pack to a file of other permissions" "$program" pack my.csv -o out
is_so "the file keeps its permissions" [ "$(within stat -c %a out)" = 640 ]
touch "$folder/.polytwkb-0.tmp"
gives "pack beside a file with the first new name" "$program" pack my.csv -o out

# ---- what is refused

fresh
stays 1 "polytwkb: bad.csv: record 3: unknown kind" "a refused table" "$program" pack bad.csv -o out
stays 1 "polytwkb: out: byte 0: unknown type" "a refused stream" "$program" show out -o out
stays 3 "polytwkb: none.csv: No such file or directory" "a missing input" "$program" pack none.csv -o out
stays 3 "polytwkb: none.csv: No such file or directory" "a missing input, and no folder for the output" \
  "$program" pack none.csv -o none/out
stays 3 "polytwkb: none/out: No such file or directory" "no folder for the output" "$program" pack my.csv -o none/out
stays 3 "polytwkb: .: Is a directory" "a folder as output" "$program" pack my.csv -o .
stays 3 "polytwkb: .: read failed" "a folder as input" "$program" pack . -o out
stays 3 "polytwkb: /dev/full: write failed" "a full disk as output" "$program" pack my.csv -o /dev/full
stays 3 "polytwkb: out: write failed" "more than a file may hold" \
  bash -c "ulimit -f 64; trap '' XFSZ; exec '$program' pack '$work/rows.csv' -o out"

# as another user, if this is root: root may write every file
as=()
other=$program
chmod 755 "$work"
if [ -z "${NODE:-}" ]; then
  other=$work/polytwkb
  cp "$program" "$other"
  chmod 755 "$other"
fi
if [ "$(id -u)" = 0 ]; then
  as=(setpriv --reuid=65534 --regid=65534 --clear-groups)
  chown -R 65534:65534 "$folder"
fi
if "${as[@]}" "$other" --version > /dev/null 2>&1; then
  chmod 444 "$folder/out"
  stays 3 "polytwkb: out: Permission denied" "an output that may not be written" \
    "${as[@]}" "$other" pack my.csv -o out
  chmod 644 "$folder/out"
  chmod 555 "$folder"
  stays 3 "polytwkb: out: Permission denied" "a folder that may not be written" \
    "${as[@]}" "$other" pack my.csv -o out
  chmod 755 "$folder"
  chmod 200 "$folder/my.csv"
  stays 3 "polytwkb: my.csv: Permission denied" "an input that may not be read" \
    "${as[@]}" "$other" pack my.csv -o out
else
  skip "files that may not be read or written: another user can't run the program"
fi

# ---- devices, pipes and links

fresh
ends 0 "" "" "pack to a device" within "$program" pack my.csv -o /dev/null
is_so "the device is one" [ -c /dev/null ]
mkfifo "$folder/pipe"
cat "$folder/pipe" > "$work/piped" &
ends 0 "" "" "pack to a pipe with a name" within "$program" pack my.csv -o pipe
wait $!
is_so "the pipe gave the blob" cmp -s "$work/piped" "$work/point.twkb"
is_so "and is one" [ -p "$folder/pipe" ]
cat "$folder/my.csv" > "$folder/pipe" &
same "$work/point.twkb" "pack of a pipe with a name" within "$program" pack pipe
wait $!

mkdir "$folder/sub"
echo old > "$folder/sub/real"
ln -s sub/real "$folder/link"
ln -s link "$folder/twice"
ln -s sub/new "$folder/dangling"
for link in link twice dangling; do
  ends 0 "" "" "pack to a link: $link" within "$program" pack my.csv -o "$link"
  is_so "it stays a link: $link" [ -L "$folder/$link" ]
  is_so "its file is the blob: $link" cmp -s "$folder/$link" "$work/point.twkb"
done
is_so "the links' folder has only their files" [ "$(within bash -c 'cd sub && echo .[!.]* *')" = ".[!.]* new real" ]

# ---- a run that is killed once it has written

fresh
mkfifo "$work/feed"
(cd "$folder" && exec "$program" pack -o out < "$work/feed") &
killed=$!
exec 4> "$work/feed"
cat "$work/rows.csv" >&4
timeout 60 bash -c "until [ -s '$folder/.polytwkb-0.tmp' ]; do sleep 0.1; done"
kill -9 "$killed"
exec 4>&-
wait "$killed" 2> /dev/null
is_so "a run that was killed leaves the file as it was" [ "$(within cat out)" = old ]
is_so "and its new file" [ -s "$folder/.polytwkb-0.tmp" ]
gives "the next run writes the file" "$program" pack my.csv -o out

# ---- a run that is killed as it makes one of its calls of the system

# killed_at CALL TABLE STREAM: a run of TABLE that is killed at this call, if it makes so many, leaves a whole file: the
# old one or STREAM
killed_at() {
  fresh
  within strace -f -qq -o "$work/calls" -e inject=all:signal=KILL:when="$1" "$program" pack "$2" -o out > "$work/none" 2>&1
  within cmp -s out "$3" || [ "$(within cat out)" = old ]
}
# killed_at_each: the same for each of the first 200, which are all of a run of one point
killed_at_each() {
  local call
  for ((call = 1; call <= 200; call++)); do
    { killed_at "$call" my.csv "$work/point.twkb" && killed_at "$call" "$work/rows.csv" "$work/rows.twkb"; } || {
      echo "call $call"
      return 1
    }
  done
}
if [ -n "${NODE:-}" ]; then
  skip "a run that is killed at each call: Node makes other calls each time"
elif ! strace -o "$work/calls" true 2> "$work/none"; then
  skip "a run that is killed at each call: strace is not there, or may not trace"
else
  is_so "a run that is killed at any of its first 200 calls leaves the file whole" killed_at_each
fi

# ---- how much of a file was read, on a terminal

{
  cat "$work/rows.csv"
  echo 0,pont,,0,
} > "$work/late.csv"
# slowly COMMAND..: a run that writes to the pipe `slow`, and goes on only after more than two seconds with an open input
slowly() {
  rm -f "$folder/slow"
  mkfifo "$folder/slow"
  within timeout 300 "$@" < /dev/null &
  # shellcheck disable=SC2016  # the words are those of the inner shell
  timeout 300 bash -c 'exec 5< "$1" && sleep 2.5 && cat <&5' - "$folder/slow" > "$work/piped"
  wait $!
}
# on_screen WORD..: such a run on a terminal; its screen is in a file
on_screen() { SHELL=/bin/sh slowly script -qec "'$program' $*" /dev/null > "$work/screen"; }
# shows PATTERN: the screen has this and nothing else
shows() { perl -0777 -ne "exit !/\\A(?:$1)\\z/" "$work/screen"; }
hundredths='(\r[ 1][ \d]\d %)+\r     \r'
if [ -n "${NODE:-}" ]; then
  skip "how much of a file was read: Node shows it not"
else
  fresh
  is_so "a run of more than two seconds ends well" on_screen pack "$work/rows.csv" -o slow
  is_so "the pipe has all blobs" cmp -s "$work/piped" "$work/rows.twkb"
  is_so "the screen had hundredths, and has no line at the end" shows "$hundredths"
  on_screen pack "$work/late.csv" -o slow
  is_so "the line is gone before a message" shows "$hundredths"'polytwkb: \S+: record \d+: unknown kind\r\n'
  on_screen pack -o slow "< '$work/rows.csv'"
  is_so "of standard input nothing is shown" [ ! -s "$work/screen" ]
  on_screen pack "$work/rows.csv" -o slow "2> '$work/none'"
  is_so "nothing is shown if standard error is a file" [ ! -s "$work/screen" ]
  is_so "and nothing is in it" [ ! -s "$work/none" ]
fi
