#!/usr/bin/env bash
# Compares the completions and the manual page with the built program's help, types lines with a tab into bash on a
# terminal, and checks the syntax of the files for shells that are installed. Status 1 if anything differs.
# shellcheck source=scripts/checks.bash
source "$(dirname "$0")/checks.bash"

[ -x bin/polytwkb ] || {
  echo "completions: bin/polytwkb is not there" >&2
  exit 1
}
scripts/completions.py || touch "$work/failed"

# Lines, and what the tab adds to each: words of the program and of each command, values, and names of files after a
# redirection, of which some begin others, and one has a blank.
typed=(
  "polytwkb unp|ack " "polytwkb --ver|sion " "polytwkb pack < table.csv --sty|le " "polytwkb pack --style=f|ull "
  "polytwkb unpack --max|-nest " "polytwkb show --he|lp " "polytwkb pack < tab|le" "polytwkb pack < tablexy|z.csv "
  "polytwkb pack <tablexy|z.csv " "polytwkb pack < two|\\ words.csv " "polytwkb pack < table.csv > tablexy|z.csv "
  "polytwkb show 2> tablexy|z.csv " "polytwkb unpack >> tablexy|z.csv "
  "polytwkb pack tablexy|z.csv " "polytwkb pack --out|put " "polytwkb unpack -o tablexy|z.csv "
  "polytwkb show --output=tablexy|z.csv " "polytwkb pack --style plain two|\\ words.csv "
)
# Types them into bash. Control-A and control-E go to the ends of the line, where it is quoted and printed after a mark.
on_terminal() {
  mkdir "$work/files" && touch "$work/files/"{table,tablex,tablexyz,"two words"}.csv || return 1
  {
    printf 'stty cols 500; bind "set enable-bracketed-paste off"; source "%s"\r' "$PWD/completions/polytwkb.bash"
    printf "%s\t\1printf '@@%%s\\\\n' '\5'\r" "${typed[@]%|*}"
    printf 'exit\r'
  } > "$work/keys"
  (cd "$work/files" && SHELL=/bin/sh TERM=dumb INPUTRC=/dev/null HISTFILE='' timeout 60 \
    script -qec "bash --norc --noprofile -i" /dev/null < "$work/keys") > "$work/screen"
  diff <(printf '%s\n' "${typed[@]//|/}") <(sed -n 's/^@@\(.*\)\r$/\1/p' "$work/screen")
}
needing script "bash on a terminal: lines with a tab, names of files after < and > too" on_terminal

for check in "bash -n completions/polytwkb.bash" "zsh -n completions/_polytwkb" \
  "fish --no-execute completions/polytwkb.fish"; do
  read -ra words <<< "$check"
  needing "${words[0]}" "$check" "${words[@]}"
done
passed_all
