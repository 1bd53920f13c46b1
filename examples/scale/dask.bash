# A scheduler of Dask and workers on the loopback, and the job on them. Sourced after machines.bash.

# The package beside these scripts, else an installed one, under a Python that has Dask too.
library=$(realpath -m "$here/../../out/libpolytwkb.so")
if [ -e "$library" ]; then export POLYTWKB_LIBRARY=$library PYTHONPATH=$here/../../python; fi
for python in python3 /usr/bin/python3; do
  if "$python" -c 'import distributed, polytwkb' 2> /dev/null; then break; fi
  python=
done
[ -n "$python" ] || {
  echo "skipped: needs python3-distributed and the package polytwkb"
  exit 0
}

# start_dask NUMBER: a scheduler, whose address is DASK_SCHEDULER_ADDRESS, and workers of one thread.
start_dask() {
  local number file=scheduler$count.json
  begin "$python" -m distributed.cli.dask_scheduler --host 127.0.0.1 --port 0 --no-dashboard \
    --scheduler-file "$file"
  until [ -s "$file" ]; do
    kill -0 "$begun" 2> /dev/null || fail "no scheduler: $(cat ./*.log)"
    sleep 0.1
  done
  DASK_SCHEDULER_ADDRESS=$("$python" -c "import json; print(json.load(open('$file'))['address'])")
  export DASK_SCHEDULER_ADDRESS
  workers=()
  for ((number = 0; number < $1; number++)); do
    begin "$python" -m distributed.cli.dask_worker "$DASK_SCHEDULER_ADDRESS" --host 127.0.0.1 \
      --nthreads 1 --no-nanny --no-dashboard --memory-limit 0 --local-directory "$folder"
    workers+=("$begun")
  done
  "$python" - "$1" << 'PYTHON'
import sys
from distributed import Client

with Client() as client:
    client.wait_for_workers(int(sys.argv[1]), 60)
PYTHON
}
in_parts() { "$python" "$here/dask_parts.py" --bytes "$4" "$1" "$2" "$3"; }

# conversions: how often the scheduler took note that a part was converted.
conversions() {
  "$python" - << 'PYTHON'
from distributed import Client


def steps(dask_scheduler):
    return [step[1:3] for step in dask_scheduler.transition_log if step[0].startswith("converted")]


with Client() as client:
    print(client.run_on_scheduler(steps).count(("processing", "memory")))
PYTHON
}
