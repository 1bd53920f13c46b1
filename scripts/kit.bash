# Ends the script that sources it, with one line, if there is no Rattle kit or not what it runs on.
if ! command -v rt > /dev/null; then
  echo "${0##*/}: the command rt of a Rattle kit is not on the path; README.md says under 'Get it' what is needed" >&2
  exit 2
elif ! command -v python3 > /dev/null; then
  echo "${0##*/}: python3, on which the command rt runs, is not on the path" >&2
  exit 2
fi
