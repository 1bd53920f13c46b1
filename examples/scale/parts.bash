# What pack_in_parts.sh and unpack_in_parts.sh share. Sourced by them, after `here` is set.
command -v parallel > /dev/null || {
  echo "${0##*/}: needs GNU parallel" >&2
  exit 127
}

# each_part FORM INPUT JOBS BYTES FUNCTION [OPTION ..]: what FUNCTION, which is exported, makes of each part of INPUT, in order; it gets
# INPUT, the part's start and length, and the options. On HOSTS, if given: if one is lost, the others convert its parts again.
each_part() {
  local name
  name=$(printf '%q' "$(realpath "$2")")
  "$here/cuts.py" "$1" "$2" "$(numfmt --from=iec "${4^^}")" |
    SHELL=$BASH parallel --no-notice -j "$3" -k --halt now,fail=1 \
      ${HOSTS:+--sshlogin "$HOSTS" --retries 3 --env "$5"} \
      --colsep ' ' "$5" "$name" '{1}' '{2}' "${@:6}"
}
