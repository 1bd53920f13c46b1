# What scripts that make checks share. Sourced by such a script as its first command: it works at the top of the
# repository, and has a folder of its own, `work`. It may set `about`, a text before the name of each check.
# `passed_all`, at its end, is whether no check failed, of those in the background too.
set -uo pipefail
cd "$(dirname "${BASH_SOURCE[0]}")/.." || exit 1
work=$(mktemp -d)
trap 'rm -rf "$work"' EXIT
about=

# report NAME COMMAND..: prints the line of a check, with the end of the command's output if it fails.
report() {
  local said
  said=$(mktemp "$work/said.XXXXXX")
  if "${@:2}" > "$said" 2>&1; then passed "$1"; else failed "$1: $(tail -c 700 "$said" | tr '\n' '/')"; fi
}
# told NAME COMMAND..: the same, with the last line that the command says, or if it fails the end of its output below.
told() {
  local said
  said=$(mktemp "$work/said.XXXXXX")
  if "${@:2}" > "$said" 2>&1; then passed "$1: $(tail -n 1 "$said")"; else failed "$1" && tail -n 40 "$said"; fi
}
# needing TOOL NAME COMMAND..: reports a check, or that the tool is not there.
needing() { if is_there "$1"; then report "${@:2}"; else skip "$2: $1 is not there"; fi; }
passed() { echo "ok    $about$1"; }
failed() {
  touch "$work/failed"
  echo "FAIL  $about$1"
}
skip() { echo "skip  $about$1"; }
is_there() { command -v "$1" > /dev/null; }
passed_all() { [ ! -e "$work/failed" ]; }
