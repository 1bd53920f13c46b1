# Hosts that are sshd on the loopback, and jobs on them by GNU parallel. Sourced after machines.bash.
need parallel ssh ssh-keygen sshd

# start_hosts NUMBER: that many new hosts, which are HOSTS, for one job at once on each.
start_hosts() {
  local number
  workers=() HOSTS=
  [ -e ssh_config ] || prepare_hosts
  for ((number = 0; number < $1; number++)); do start_host; done
  export HOSTS
}

# Their polytwkb writes a line to runs.txt and is the one here. They read no file of this user's shell.
prepare_hosts() {
  ssh-keygen -q -t ed25519 -N '' -f key
  ssh-keygen -q -t ed25519 -N '' -f host_key
  mkdir remote
  : > runs.txt
  printf '#!/bin/sh\necho >> %q\nexec %q "$@"\n' "$folder/runs.txt" "$(command -v polytwkb)" > remote/polytwkb
  chmod +x remote/polytwkb
  # a folder that sshd needs under root, and that a service of Debian makes
  [ "$(id -u)" != 0 ] || mkdir -p /run/sshd
  cat > sshd_config << CONFIG
ListenAddress 127.0.0.1
HostKey $folder/host_key
AuthorizedKeysFile $folder/key.pub
StrictModes no
UsePAM no
PidFile none
SetEnv HOME=$folder PATH=$folder/remote:/usr/bin:/bin
CONFIG
  cat > ssh_config << CONFIG
Host host*
  HostName 127.0.0.1
  IdentityFile $folder/key
  IdentitiesOnly yes
  UserKnownHostsFile $folder/known_hosts
  StrictHostKeyChecking accept-new
  LogLevel ERROR
  ControlMaster auto
  ControlPath $folder/%n
  ControlPersist 60
CONFIG
  export PARALLEL_SSH="ssh -F $folder/ssh_config"
}

# start_host: one by a new name, on a port that is free.
start_host() {
  local port name
  for _ in 1 2 3 4 5 6 7 8 9; do
    port=$((20000 + RANDOM % 10000)) name=host$count
    begin "$(command -v sshd)" -D -e -f sshd_config -p "$port"
    printf 'Match originalhost %s\n  Port %d\n' "$name" "$port" >> ssh_config
    until ssh -F ssh_config "$name" true 2> ssh.txt; do
      kill -0 "$begun" 2> /dev/null || continue 2
      sleep 0.2
    done
    workers+=("$begun") HOSTS=$HOSTS${HOSTS:+,}$name
    return
  done
  fail "no sshd: $(tail -n 1 "$count.log" ssh.txt)"
}
in_parts() {
  case $1 in
    pack) "$here/pack_in_parts.sh" "$2" "$3" 1 "$4" ;;
    unpack) "$here/unpack_in_parts.sh" "$2" "$3" 1 "$4" ;;
  esac
}
conversions() { wc -l < runs.txt; }
