#!/usr/bin/env bash
# Converts a table of MEGABYTES (200), and its stream, by GNU parallel on two hosts, each an sshd on the
# loopback, and compares with one run: bytes, also if a host is killed, and status and text of inputs
# that are refused. check_ssh.sh [MEGABYTES]
source "$(dirname "$0")/machines.bash"
source "$here/ssh.bash"
check_all start_hosts "${1:-200}"
