# What the demonstrations share: polytwkb on the path, a folder of their own, tools that may be missing.
set -euo pipefail
here=$(cd "$(dirname "${BASH_SOURCE[0]}")" && pwd)
# The program of the repository, an installed one, or that of the archive.
PATH=$here/../../bin:$PATH:$here/../../../../bin

# Ends the demonstration, as skipped, if a tool is missing.
need() {
  local tool
  for tool in "$@"; do
    command -v "$tool" > /dev/null || {
      echo "skipped: needs $tool"
      exit 0
    }
  done
}

need polytwkb
folder=$(mktemp -d)
trap 'rm -rf "$folder"' EXIT
cd "$folder"
# As on the page, and without a blank in it.
RECIPES=$folder/recipes
ln -s "$here" "$RECIPES"
