#!/usr/bin/env bash
# The command of the package for JavaScript, as npm installs it from its archive into an empty folder: one line for each
# check, status 1 if one failed.
#
#   scripts/npx_test.sh [ARCHIVE]
#
# Without an archive, npm packs one of js/, which needs js/polytwkb.wasm. Needs node 20 and npm, and no network.
# shellcheck source=scripts/checks.bash
source "$(dirname "$0")/checks.bash"
export npm_config_offline=true npm_config_audit=false npm_config_fund=false npm_config_cache="$work/npm" npm_config_update_notifier=false
chmod 755 "$work" # for another user

for tool in node npm npx; do
  is_there "$tool" || {
    skip "npx: $tool is not there"
    exit 0
  }
done

folder=$work/empty
installed=$folder/node_modules
program=$installed/.bin/polytwkb

# The files that package.json names, packed by npm.
packed() {
  mkdir "$work/package" || return 1
  (cd js && cp -r package.json command page src examples ./*.js ./*.cjs ./*.ts ./*.wasm README.md "$work/package") &&
    cp LICENSE "$work/package" && (cd "$work/package" && npm pack --pack-destination "$work")
}
by_npm() {
  umask 022
  mkdir "$folder" && (cd "$folder" && npm install "$archive")
}
# in_empty WORD..: runs npx in the folder, where it finds the package
in_empty() { (cd "$folder" && npx --no -- polytwkb "$@"); }
table=$'depth,kind,id,precision,polyline\n0,point,,0,AC\n'
converts() {
  printf %s "$table" > "$folder/my.csv"
  in_empty pack my.csv -o my.twkb && [ "$(in_empty show my.twkb)" = "0 0 point 0 02 5 1" ] &&
    in_empty unpack my.twkb | cmp - "$folder/my.csv" && [ "$(in_empty --version)" = "polytwkb $version" ]
}
version=$(node -p 'require("./js/package.json").version')
needs_nothing() { [ "$(ls "$installed")" = polytwkb ]; }

# what systems differ in
crlf() { printf %s "${table//$'\n'/$'\r\n'}" | "$program" pack | cmp - "$folder/my.twkb"; }
backslashes() {
  local name='C:\routes\my.twkb'
  (cd "$folder" && "$program" pack my.csv -o "$name" && cmp "$name" my.twkb && "$program" unpack "$name" | cmp - my.csv)
}
# pipes that do not wait, as a program that starts the command may have made them
no_waiting() {
  python3 - "$program" << 'END'
import os, subprocess, sys, threading, time

(input_end, feed), (output_end, output) = os.pipe(), os.pipe()
os.set_blocking(input_end, False)
os.set_blocking(output, False)
run = subprocess.Popen([sys.argv[1], "pack"], stdin=input_end, stdout=output)
os.close(input_end)
os.close(output)


def feed_slowly():
    time.sleep(0.3)
    with os.fdopen(feed, "wb") as pipe:
        pipe.write(b"depth,kind,id,precision,polyline\n" + b"0,point,,0,AC\n" * 200000)


threading.Thread(target=feed_slowly).start()
time.sleep(0.6)
found = os.fdopen(output_end, "rb").read()
sys.exit(run.wait() or found != bytes.fromhex("0102020402") * 200000)
END
}

archive=${1:+$(realpath "$1")}
if [ -z "$archive" ]; then
  report "npx: npm packs the package" packed
  archive=$work/polytwkb-$version.tgz
fi
report "npx: npm installs the archive into an empty folder" by_npm
report "npx: it needs no other package" needs_nothing
report "npx: packs, shows and unpacks files" converts
report "npx: a table with lines that end by CR LF" crlf
report "npx: a name with backslashes" backslashes
told "npx: the rows of tests/vectors/runs.txt" node js/tests/command.mjs "$installed"
report "npx: pipes that do not wait" no_waiting
PROGRAM=$program NODE=yes MEGABYTES=10 scripts/smoke.sh > "$work/smoke" || touch "$work/failed"
sed -E 's/^(ok  |FAIL|skip)  /\1  npx: /' "$work/smoke"
passed_all
