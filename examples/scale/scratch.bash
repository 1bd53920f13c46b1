# The polytwkb of this repository, the tools that a run needs, and a folder for it, in which it then is. Sourced with the names of the
# tools; a run for which one is missing ends with status 0 and says so.
set -euo pipefail
here=$(cd "$(dirname "${BASH_SOURCE[0]}")" && pwd)
PATH=$here/../../bin:$PATH

need() {
  local tool
  for tool in "$@"; do
    command -v "$tool" > /dev/null || {
      echo "skipped: needs $tool"
      exit 0
    }
  done
}
need "$@"
folder=$(mktemp -d)
trap 'rm -rf "$folder"' EXIT
cd "$folder"
