#!/usr/bin/env bash
# The lines of a stream in arrays of numpy.
source "$(dirname "$0")/common.bash"
source "$here/python.bash"
run_with numpy "$here/python_arrays.py" > seen.txt
if grep '^skipped' seen.txt; then exit; fi
head -n 5 seen.txt | cmp - <(
  cat << 'END'
59 bytes: a2031ecce75ace0dc48abd048803049af55a9a8cbd04b9054d8905870189038803a20317a4e95ab801e689bd045e03d6ea5ac48abd04061db7013f
[(2, 4, 5) (2, 3, 5)]
(4, 2) [ 7.4391 46.9469] [ 7.44781 46.94886]
(3, 2) [ 7.44018 46.94643] [ 7.4411 46.9469]
back: the same bytes
END
)
tail -n +6 seen.txt
