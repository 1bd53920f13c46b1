# A PostgreSQL server of the demonstration's own, on a socket in its folder, as an unprivileged user; it ends with the
# demonstration. After 'source': psql is connected to it, and as_server runs a command as the server's user.
# shellcheck source=examples/recipes/common.bash
source "$(dirname "${BASH_SOURCE[0]}")/common.bash"
need psql

bindir=$(find /usr/lib/postgresql -mindepth 2 -maxdepth 2 -name bin 2> /dev/null | sort -V | tail -n 1)
PATH=$PATH${bindir:+:$bindir}
need initdb pg_ctl

# A server looks for extensions beside its program. If the repository has built its own, this one has copies of the programs
# that look there, and links to all else.
version=${bindir//[!0-9]/}
if [ -n "$version" ] && [ -z "${NO_OWN_EXTENSION:-}" ] && [ -e "$here/../../out/postgresql/$version/polytwkb.so" ]; then
  for part in lib share; do
    mkdir -p "$folder/server/usr/$part/postgresql"
    # a file that a package brings or takes away meanwhile may be missing
    cp -as "/usr/$part/postgresql/$version" "$folder/server/usr/$part/postgresql" 2> cp.log || true
  done
  cp --remove-destination "$bindir"/{postgres,initdb,pg_ctl} "$folder/server$bindir"
  cp --remove-destination "$here/../../out/postgresql/$version/polytwkb.so" "$folder/server${bindir%/bin}/lib"
  cp --remove-destination "$here/../../out/postgresql/$version"/polytwkb{.control,--*.sql} \
    "$folder/server/usr/share/postgresql/$version/extension"
  PATH=$folder/server$bindir:$PATH
fi

# The server refuses to run as root.
if [ "$(id -u)" = 0 ]; then
  need runuser
  getent passwd postgres > /dev/null || {
    echo "skipped: needs the user postgres"
    exit 0
  }
  as_server() { runuser -u postgres -- env "PATH=$PATH" "$@"; }
  chown postgres "$folder"
  chmod 755 "$folder"
else
  as_server() { "$@"; }
fi

# What is written need not outlast the machine, so nothing waits for the disk.
as_server initdb -D "$folder/data" -U recipe -A trust -E UTF8 --locale=C --no-sync > initdb.log
as_server pg_ctl -D "$folder/data" -o "-k $folder -c listen_addresses='' -c fsync=off ${SERVER_OPTIONS:-}" -w \
  -l "$folder/server.log" start > /dev/null
trap 'as_server pg_ctl -D "$folder/data" -m immediate -w stop > /dev/null; rm -rf "$folder"' EXIT
export PGHOST=$folder PGUSER=recipe PGDATABASE=postgres PGOPTIONS='-c client_min_messages=warning'

# Without ON_ERROR_STOP psql goes on after a statement that failed, and ends with 0; -X leaves out ~/.psqlrc.
psql() { command psql -X -q -v ON_ERROR_STOP=1 "$@"; }

need_postgis() {
  psql -c 'CREATE EXTENSION postgis' 2> fault.txt ||
    {
      echo "skipped: needs postgis ($(head -n 1 fault.txt))"
      exit 0
    }
}

need_polytwkb() {
  psql -c 'CREATE EXTENSION polytwkb' 2> fault.txt ||
    {
      echo "skipped: needs the extension polytwkb ($(head -n 1 fault.txt))"
      exit 0
    }
}
