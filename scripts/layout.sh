#!/usr/bin/env bash
# Lays out Python, C and JavaScript, and shell, as black, clang-format and shfmt of Debian do:
#
#   scripts/layout.sh [--check] [python|c|shell]..
#
# With --check nothing is written, and the status is 1 if a file is laid out otherwise.
set -euo pipefail
cd "$(dirname "$0")/.."
python_words=() c_words=(-i) shell_words=(-w)
if [ "${1-}" = --check ]; then
  python_words=(--check) c_words=(--dry-run -Werror) shell_words=(-d)
  shift
fi

files() { git ls-files --cached --others --exclude-standard -- "$@" | sort -u; }
starting() { files | xargs grep -lIE "^#!.*\\b$1\\b" --; }

in_python() { { files '*.py' && starting python3; } | sort -u | xargs black -q --line-length 120 "${python_words[@]}"; }
in_c() { files '*.c' '*.h' '*.cpp' '*.hpp' '*.js' '*.mjs' '*.ts' | xargs clang-format --style=file "${c_words[@]}"; }
in_shell() { { files '*.bash' ':!completions' && starting bash; } | sort -u | xargs shfmt -i 2 -ci -sr "${shell_words[@]}"; }

[ $# -gt 0 ] || set -- python c shell
for language in "$@"; do "in_$language"; done
