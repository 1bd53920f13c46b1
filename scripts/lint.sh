#!/usr/bin/env bash
# Linters over what is beside the crates, and the lengths of what is in them. A linter that this machine lacks is named
# as skipped. None needs a kit or a build.
# shellcheck source=scripts/checks.bash
source "$(dirname "$0")/checks.bash"

# files PATTERN..: prints the files of the repository, and new ones, with these endings.
files() { git ls-files --cached --others --exclude-standard -- "$@" | sort -u; }
mapfile -t python < <({
  files '*.py'
  files | xargs grep -lIE '^#!.*\bpython3\b' --
} | sort -u)
mapfile -t scripts < <(files | xargs grep -lIE '^#!.*\bbash\b' --)
# What is compiled for this processor, if the headers of databases are there; packaging/wasm has a compiler and warnings
# of its own.
server=$(pg_config --includedir-server 2> "$work/none")
without=(':!packaging/wasm')
left_out() { skip "C: $1 is not there" && without+=("${@:2}"); }
[ -e /usr/include/sqlite3ext.h ] || left_out "SQLite: libsqlite3-dev" ':!extensions/sqlite' ':!tests/databases'
[ -e "$server/postgres.h" ] || left_out "PostgreSQL: postgresql-server-dev" ':!extensions/postgresql'
mapfile -t c < <(files '*.c' "${without[@]}")
# The page of recipes has $RECIPES without quotes, and its demonstrations run these lines as they are.
mapfile -t recipes < <(printf '%s\n' "${scripts[@]}" | grep '^examples/recipes/')
mapfile -t other_scripts < <(printf '%s\n' "${scripts[@]}" | grep -v '^examples/recipes/')
mapfile -t shown < <(files 'js/src/*.js')

warnings() {
  local file
  for file in "${c[@]}"; do
    cc -std=gnu11 -fsyntax-only -Werror -Wall -Wextra -Wpedantic -Wshadow -Wconversion -Wwrite-strings \
      -Wstrict-prototypes -Wvla -Wundef -Iinclude -Iextensions/shared -isystem "${server:-/nonexistent}" \
      -DSECONDS=1 -DMEGABYTES=1 -DWRITTEN=1 -DROOT='"/"' -DPROGRAM='"/"' "$file" || return 1
  done
}
# the calls of the oldest engines that js/README.md names are those of ES2020
typed_js() {
  tsc --noEmit --allowJs --checkJs --target es2020 --module esnext --moduleResolution node --lib es2020,dom \
    "${shown[@]}"
}
in_plain() { (cd bench/plain && "$@"); }
# a status or a reason that is compared with a number without a name, or a number that is given as a reason
bare_numbers() {
  local compare=' *([<>]=?|[!=]==?) *'
  ! git grep -nE -e "\\b(status|reason)\\b${compare}[0-9]" -e "\\b[0-9]+${compare}(\\w+\\.)?(status|reason)\\b" \
    -e '\b(Refused|reason_text|reasonText)\([0-9]' -- python/polytwkb js/src
}
# the layout that the formatters write; scripts/layout.sh writes it
laid_out() { scripts/layout.sh --check "$@"; }
marks_of_a_merge() { ! git grep -nE '^(<{7}|>{7})( |$)'; }

needing shellcheck "bash: shellcheck, ${#other_scripts[@]} scripts" shellcheck --check-sourced "${other_scripts[@]}"
needing shellcheck "bash: shellcheck, ${#recipes[@]} recipes" shellcheck --check-sourced -e SC2086 "${recipes[@]}"
needing pyflakes3 "Python: pyflakes, ${#python[@]} files" pyflakes3 "${python[@]}"
if /usr/bin/python3 -c 'import numpy' 2> "$work/numpy"; then
  needing mypy "Python: mypy over the package" mypy --strict --no-error-summary --cache-dir="$work/mypy" python/polytwkb
else
  skip "Python: mypy: python3-numpy is not there, of which it reads the types"
fi
needing tsc "JavaScript: types of js/src" typed_js
needing cc "C: warnings, ${#c[@]} files" warnings
needing black "Python: layout by black" laid_out python
needing clang-format "C and JavaScript: layout by clang-format" laid_out c
needing shfmt "bash: layout by shfmt" laid_out shell
needing rustfmt "Rust: layout of bench/plain" in_plain rustfmt --check --edition 2021 src/{lib,main,make_table}.rs
if cargo clippy --version > /dev/null 2>&1; then
  export CARGO_TARGET_DIR=$work/clippy
  report "Rust: clippy over bench/plain" in_plain cargo clippy --offline -q --all-targets -- -D warnings
else
  skip "Rust: cargo clippy is not there"
fi
report "Python and JavaScript: no status or reason without its name" bare_numbers
report "all files: no marks of a merge" marks_of_a_merge
report "crates: nothing is too long" scripts/too_long.py
passed_all
