# Proofs by `rt ci` over a copy of the crates without mutants, side by side. With a kit that keeps proofs, a
# round takes what another round or the gate has proved on this machine. Sourced by scripts that work in their own
# folder, which `cleared` removes at their end.

repository=$(cd "$(dirname "${BASH_SOURCE[0]}")/.." && pwd)
# shellcheck source=scripts/kit.bash
source "$repository/scripts/kit.bash"

# with_below CRATE..: prints the lines of crates.txt, the lowest first, of these crates and of all that they use.
with_below() {
  tac "$repository/crates.txt" | awk -v FS='[ :]+' -v wanted="$*" '
    BEGIN { count = split(wanted, names, " "); for (place = 1; place <= count; place++) needed[names[place]] }
    /^[a-z]/ && $1 in needed { print; for (place = 2; place <= NF; place++) needed[$place] }' | tac
}

# names_of FILE: prints the names of crates in such lines.
names_of() { sed 's/[ :].*//' "$@"; }

# copy_crates COPY CRATE..: copies these crates and those below them, as the top of a repository.
copy_crates() {
  local copy=$1 names
  shift
  mkdir -p "$copy/.git"
  with_below "$@" > "$copy/crates.txt"
  mapfile -t names < <(names_of "$copy/crates.txt" | sed 's|^|crates/|')
  tar -c -C "$repository" --exclude=out --exclude=must-fail HANDLES "${names[@]}" | tar -x -C "$copy"
}

# keeps_proofs: whether the kit keeps what a run of `rt ci` has passed, for other copies too, and this user may write there.
keeps_proofs() {
  local beside
  # a kit that keeps proofs has a word to make all of them anew
  [[ $(rt --help 2>&1) == *--anew* ]] || return 1
  beside=$(dirname "$(dirname "$(rt doc)")")
  [ -O "$beside/rattle-kept" ] || [ -w "$beside" ]
}

# shown COUNT: reports at each crate in the lines of `rt ci` how many of COUNT are proved after which time.
shown() {
  local name proved=0
  sed -un -E 's/^rt: ([a-z_]+) (proved$|is kept.*)/\1/p' | while read -r name; do
    proved=$((proved + 1))
    printf '%3d:%02d  %d of %d crates proved: %s\n' $((SECONDS / 60)) $((SECONDS % 60)) $proved "$1" "$name"
  done
}

# prove COPY: runs `rt ci` over the copy, which leaves the libraries and programs in its crates/*/out. If it
# fails, all its output is shown.
prove() {
  local copy=$1 engine=
  if [ -d "$copy/crates/twkb_engine" ] && keeps_proofs; then
    # Nearly all crates wait for the engine, and it waits for a chain of others. A separate run comes first and
    # gives each of these more processors than they would have among all crates; the other run takes what it has
    # proved.
    copy_crates "$copy-engine" twkb_engine
    (cd "$copy-engine" && exec rt ci) > "$copy-engine.log" 2>&1 &
    engine=$!
    sleep 5
  fi
  (cd "$copy" && exec ${engine:+nice} rt ci) 2>&1 | tee "$copy.log" | shown "$(names_of "$copy/crates.txt" | wc -l)" ||
    {
      cat "$copy.log"
      return 1
    }
  [ -z "$engine" ] || wait "$engine" || {
    cat "$copy-engine.log"
    return 1
  }
}

# libraries COPY CRATE..: copies these crates and those below them, proved. PROVED names a checkout in which `rt
# ci` has just passed over these sources, and which held no work of another run before: the libraries there are
# taken, and nothing is proved again.
libraries() {
  copy_crates "$@"
  { [ -n "${PROVED:-}" ] && take "$1"; } || prove "$1"
}

take() {
  local name names
  mapfile -t names < <(names_of "$1/crates.txt")
  for name in "${names[@]}"; do [ -d "$PROVED/crates/$name/out/rlib" ] || return 1; done
  for name in "${names[@]}"; do
    mkdir "$1/crates/$name/out"
    # by links if both are on one disk: `rt` never writes into a library
    cp -al "$PROVED/crates/$name/out/rlib" "$1/crates/$name/out/" 2> /dev/null ||
      cp -a --remove-destination "$PROVED/crates/$name/out/rlib" "$1/crates/$name/out/"
  done
}

# uses CRATE: prints the crates that a crate uses.
uses() { sed -n "s/^$1\( staticlib\)\?: *//p" "$repository/crates.txt"; }

# add_crate COPY CRATE: copies one more crate over these libraries.
add_crate() {
  grep "^$2[ :]" "$repository/crates.txt" >> "$1/crates.txt"
  tar -c -C "$repository" --exclude=out --exclude=must-fail "crates/$2" | tar -x -C "$1"
}

# over COPY CRATE VERB: runs `rt lib` or `rt run` of one more crate over these libraries, and shows all its output if it
# fails. What it checks stays in out/checked, so that the next build of the crate, as for another machine, checks only
# what differs.
over() {
  local status=0 kept=$repository/out/checked/$2 own=$1/crates/$2/out
  mkdir -p "$own"
  # renamed first, so that no two builds take the same
  if mv "$kept" "$kept.$$" 2> /dev/null; then mv "$kept.$$" "$own/incremental"; fi
  (cd "$1/crates/$2" && "$repository/scripts/over_proved.py" "$3") > "$1.log" 2>&1 || status=$?
  if [ -d "$own/incremental" ]; then
    rm -rf "$kept"
    mkdir -p "$(dirname "$kept")"
    { mv "$own/incremental" "$kept.$$" && mv -T "$kept.$$" "$kept" 2> /dev/null; } || rm -rf "$kept.$$"
  fi
  [ $status -eq 0 ] || [ "$3" = run ] || cat "$1.log"
  return $status
}

# cleared FOLDER: ends the processes that the script still runs, and removes its folder.
cleared() {
  mapfile -t running < <(jobs -pr)
  [ ${#running[@]} -eq 0 ] || kill "${running[@]}" 2> /dev/null || true
  rm -rf "$1"
}
