# Python with the package polytwkb: that of the repository, if its library is built, or an installed one.
library=$here/../../out/libpolytwkb.so
[ ! -e "$library" ] || export POLYTWKB_LIBRARY=$library PYTHONPATH=$here/../../python

# Runs a script by a Python that has the package and a module; the demonstration is skipped if there is none.
run_with() {
  local python module=$1
  shift
  for python in python3 /usr/bin/python3; do
    if "$python" -W ignore -c "import polytwkb, $module" 2> /dev/null; then
      "$python" -B -W ignore "$@"
      return
    fi
  done
  echo "skipped: needs python3-$module and the package polytwkb"
}
