#!/usr/bin/env bash
# Runs the program and the libraries for 64-bit ARM under qemu, and compares them with stored answers and with
# those of this machine's build: one line for each check, status 1 if one failed.
#
#   scripts/arm64_test.sh        after `make build lib arm64`
#
# The program vector_runner is proved and built for this processor beside the other checks, which takes as long as they all do.
# CASES is the number of cases of tests/fuzz. A program under qemu gets any limit of memory granted and keeps none,
# so tests/hostile/sizes.py and the package's test of little memory are not run. A wrong program may do anything: each
# run under qemu has the limits below, and each check that makes many runs `patience` seconds; fuzz one more for each
# case.
# shellcheck source=scripts/checks.bash
source "$(dirname "$0")/checks.bash"
about="arm64: "
repository=$PWD
built=$repository/out/arm64
cross=aarch64-linux-gnu
root=/usr/$cross
export LC_ALL=C
unset MAKEFLAGS MAKELEVEL
patience=900
# of one run: seconds of a processor, megabytes of addresses, megabytes in a file that it writes
seconds=20 megabytes=512 written=64

# under_qemu ROOT WORD..: runs a program of ARM, which finds the C library in that root.
under_qemu() {
  (ulimit -c 0 -t "$seconds" -v $((megabytes << 10)) -f $((written << 10)) && exec qemu-aarch64-static -L "$@")
}
arm() { under_qemu "$root" "$@"; }

# starter PROGRAM FILE [ROOT]: makes a file that this machine can start, and that runs a program of ARM.
starter() {
  local limits=(-DSECONDS="$seconds" -DMEGABYTES="$megabytes" -DWRITTEN="$written")
  cc -static -O1 "${limits[@]}" -DROOT="\"${3:-$root}\"" -DPROGRAM="\"$1\"" -o "$2" tests/arm64/under_qemu.c
}

# compile NAME WORD..: compiles a program of ARM.
compile() { $cross-gcc -std=c11 -O1 -Wall -Wextra -Werror -Iinclude -o "$work/$1" "${@:2}"; }

# ---- the program

# A copy of what the scripts read, in which bin/polytwkb starts the program of ARM.
tree=$work/tree
mkdir -p "$tree/bin" "$tree/out"
cp -r scripts tests examples python include "$tree/"
cp --parents crates/twkb_convert/src/version.rt crates/vector_runner/stdin crates/vector_runner/stdout "$tree/"
cp -a "$built"/libpolytwkb.* "$tree/out/"
starter "$built/polytwkb" "$tree/bin/polytwkb" || exit 1
$cross-gcc -O1 -shared -fPIC -o "$tree/bin/refuse.so" tests/hostile/refuse.c || exit 1

# scripts/test.sh may be making the program already
vectors() { flock "$built/vector_runner.lock" make -s out/arm64/vector_runner && arm "$built/vector_runner" < crates/vector_runner/stdin | cmp - crates/vector_runner/stdout; }
same() { cmp <(bin/polytwkb "$@" < "$work/input" 2>&1) <("$tree/bin/polytwkb" "$@" < "$work/input" 2>&1); }
as_here() {
  cp examples/collection.csv "$work/input"
  same pack && same pack --style plain && same --help && same pack --help && same --version && same unpack || return 1
  bin/polytwkb pack < examples/collection.csv > "$work/input"
  same show && same unpack
}
smoke() { (cd "$tree" && MEGABYTES=2 timeout "$patience" scripts/smoke.sh); }
fuzz() {
  local cases=${CASES:-5000} seed=${SEED:-$(date -u +%Y%m%d)}
  (cd "$tree" && timeout $((patience + cases)) python3 -B tests/fuzz/fuzz.py --cases "$cases" --seed "$seed" \
    --processes 2 --program bin/polytwkb --library bin/refuse.so)
}
# Fewer rows than on x86-64, where the same code is made by the same compiler: they reach each place that calls the functions of C.
each_failing() { (cd "$tree" && timeout "$patience" python3 -B tests/hostile/each_failing.py bin/polytwkb bin/refuse.so few); }

# The functions of C, one by one: the program seldom asks what an alignment is.
shims() { compile shims tests/arm64/shims.c "$built/shims.a" && arm "$work/shims" one two; }

# Segments lie at multiples of 64 kB or more, so that machines with pages of that size can load them.
pages() {
  local file align loads=0
  for file in "$built/polytwkb" "$built/static/polytwkb" "$(realpath "$built/libpolytwkb.so")"; do
    for align in $(readelf -lW "$file" | awk '$1 == "LOAD" { print $NF }'); do
      loads=$((loads + 1))
      [ $((align)) -ge 65536 ] || {
        echo "$file: $align"
        return 1
      }
    done
  done
  [ $loads -gt 0 ]
}

of_program() {
  report "each of the functions of C" shims
  report "the example and the texts of help, as here" as_here
  report "segments fit pages of 64 kB" pages
  report "each call of the program failing" each_failing
}

# ---- the library

in_c() {
  compile static examples/c/convert.c "$built/libpolytwkb.a" && arm "$work/static" &&
    compile shared examples/c/convert.c -L"$built" -lpolytwkb -Wl,-rpath,"$built" && arm "$work/shared"
}
growths() {
  local wraps=("-Wl,--wrap=malloc" "-Wl,--wrap=realloc")
  compile growths tests/arm64/growths.c "$built/libpolytwkb.a" "${wraps[@]}" && arm "$work/growths" < examples/collection.csv > "$work/arm" &&
    cc -std=c11 -O1 -Iinclude -o "$work/growths_here" tests/arm64/growths.c out/libpolytwkb.a "${wraps[@]}" && "$work/growths_here" < examples/collection.csv | cmp - "$work/arm"
}
of_library() {
  report "the example in C, static and shared" in_c
  report "each growth of the library refused, as here" growths
}

# ---- archive, package and wheel

# What scripts/dist.sh makes of this build; `make dist` makes the same.
packed() { scripts/dist.sh "$work/dist" arm64 && scripts/dist.sh "$work/again" arm64 && cmp "$work/dist/SHA256SUMS" "$work/again/SHA256SUMS"; }

# through COMMAND..: packs and unpacks the example.
through() { cmp <("$@" pack < examples/collection.csv | "$@" unpack) examples/collection.csv; }

# A root of this processor with the C library and nothing else.
c_root() {
  mkdir -p "$1/lib" "$1/tmp" && cp -L "$root"/lib/{ld-linux-aarch64.so.1,libc.so.6} "$1/lib/"
}
by_dpkg() {
  local at=$work/package
  c_root "$at" && mkdir -p "$at"/var/lib/dpkg/{info,updates} && touch "$at/var/lib/dpkg/status" &&
    dpkg --root="$at" --log=/dev/null --path-include='*' --force-architecture --force-depends --force-not-root --install "$work"/dist/polytwkb_*_arm64.deb &&
    through under_qemu "$at" "$at/usr/bin/polytwkb" &&
    $cross-gcc -std=c11 -o "$at/tmp/shared" examples/c/convert.c -I"$at/usr/include" -L"$at/usr/lib/$cross" -lpolytwkb &&
    under_qemu "$at" -E LD_LIBRARY_PATH="$at/usr/lib/$cross" "$at/tmp/shared"
}
by_archive() {
  local at=$work/archive words
  mkdir -p "$at" && tar -xzf "$work"/dist/polytwkb-*-aarch64-linux.tar.gz -C "$at" --strip-components=1 || return 1
  # nothing but the command: no C library
  through under_qemu /nonexistent "$at/bin/polytwkb" || return 1
  read -ra words <<< "$(PKG_CONFIG_PATH="$at/lib/pkgconfig" pkg-config --cflags --libs polytwkb)"
  $cross-gcc -std=c11 -o "$work/archived" examples/c/convert.c "${words[@]}" && arm -E LD_LIBRARY_PATH="$at/lib" "$work/archived"
}
# The wheel by the pip and the Python of ARM, in a root that debootstrap filled; then the package's tests over it, with
# fewer random values.
by_pip() {
  local at=$1 pip package
  debootstrap --foreign --arch=arm64 --variant=minbase --include=python3 bookworm "$at" || return 1
  for package in "$at"/var/cache/apt/archives/*.deb; do dpkg-deb -x "$package" "$at" || return 1; done
  seconds=$patience megabytes=2048 starter "$(realpath "$at/usr/bin/python3")" "$work/python3" "$at" || return 1
  pip=$(python3 -c 'import ensurepip, glob, os; print(glob.glob(os.path.join(os.path.dirname(ensurepip.__file__), "_bundled", "pip-*.whl"))[0])')
  export PYTHONHOME=$at/usr
  timeout "$patience" "$work/python3" -B "$pip/pip" install -q --disable-pip-version-check --root-user-action=ignore \
    --no-index --no-compile --target "$work/wheel" "$work"/dist/polytwkb-*_aarch64.whl &&
    cd python/tests && export ROUNDINGS=2000 CASES=500 PYTHONPATH=$work/wheel &&
    timeout "$patience" "$work/python3" -B "$repository/tests/arm64/package_tests.py"
}

of_packages() {
  report "archive, package and wheel, twice the same bytes" packed
  report "the package in a root of its processor" by_dpkg
  needing lintian "the package: lintian" lintian --allow-root --fail-on error,warning "$work"/dist/polytwkb_*_arm64.deb
  needing pkg-config "the archive, with no C library" by_archive
  if ! is_there debootstrap || [ "$(id -u)" -ne 0 ]; then
    skip "wheel: debootstrap is not there, or this is not root"
  else
    report "the wheel by pip, and the package's tests" by_pip "$work/python"
  fi
}

# ---- side by side

report "the stored answers of the program vector_runner" vectors &
of_program &
of_packages &
of_library
report "smoke" smoke
report "a second implementation, random inputs" fuzz
wait
passed_all
