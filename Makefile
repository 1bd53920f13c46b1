# make demo              the main job on an example: builds the command, and runs the first lines of README.md with it
# make test              all tests: the gate, and then the parts named below on what it built
# make check             the short round
# make quick             for the minutes before the gate: lint, pages, and the rows of tests/vectors without a proof
# make layout            lays out Python, C, JavaScript and shell as make lint wants it
# make lint              linters over what is beside the crates, and what is too long in them; needs no kit
# make build             the command into bin/
# make dist              archive, Debian package and wheel for each processor (64-bit ARM if its compiler is there), and the
#                        npm archive, into dist/
# make dist-test         each of these, installed into an empty root and used there; as root also by apt-get
# make smoke             the built program with real files and pipes
# make completions-test  the words of the completions and of the manual page, compared with help
# make docs-test         the commands that documents show, run and compared; the words, links and promises of the pages
# make recipes           each recipe and the checks of parts, on many machines too, if the tools are installed
# make lib               the library for C into out/, static and shared
# make static            the command that asks for no C library, into out/static/
# make arm64             command and libraries for Linux on 64-bit ARM, into out/arm64/, by Debian's cross compiler
# make arm64-test        these under qemu
# make wasm              the library for browsers and Node into js/, with its JavaScript
# make wasm-test         its tests in Node and in browsers, if they are installed
# make picture           the picture of the page that README.md shows, by Chromium
# make databases         the extensions for SQLite and PostgreSQL into out/, if the headers of these are there
# make gdal              the driver for GDAL into out/gdal, if its headers are there
# make gdal-test         the driver: what it reads and writes, beside other drivers, hostile files
# make databases-test    the extensions: vectors, random cases, refused growths, hostile values, in servers of their own
# make lib-test          the examples in C, Python and Go (if installed) over it; in C under valgrind, if installed
# make lib-bench         times of calls of the library and of the package for Python
# make wheel             the package for Python with the shared library, into dist/
# make python-test       the package for Python over the shared library
# make install           program, libraries, manual page, completions, pages and examples below PREFIX, in the folder DESTDIR
# make uninstall         removes these files
# make hostile           the built program with little memory, failing devices and hostile inputs
# make fuzz              the program compared with a second implementation, on random inputs (CASES, SEED, PROCESSES)
# make fuzz-library      the library and the package for Python likewise: arrays of rows and points, checks of tables
# make bench             times and memory, compared with a plain program; BENCH has words for bench/beside_plain.sh
# make clean             removes what was built
.PHONY: test check quick layout lint build lib databases databases-test gdal gdal-test static arm64 arm64-test wasm wasm-test picture lib-test lib-bench wheel python-test demo bench smoke completions-test docs-test recipes hostile fuzz fuzz-library dist dist-test install uninstall clean

PREFIX ?= /usr/local
DESTDIR ?=
BINDIR ?= $(PREFIX)/bin
DATADIR ?= $(PREFIX)/share
LIBDIR ?= $(PREFIX)/lib
INCLUDEDIR ?= $(PREFIX)/include
ZSHDIR ?= $(DATADIR)/zsh/site-functions
INSTALL ?= install
# The address of the sources, which the packages name if there is one.
HOMEPAGE ?=
export HOMEPAGE

# The version of the command and of the library, read from the code. Programs find the library by a name with the
# major number.
VERSION := $(shell sed -n 's/^pub const VERSION: &str = "\(.*\)";/\1/p' crates/twkb_convert/src/version.rt)
SONAME := libpolytwkb.so.$(firstword $(subst ., ,$(VERSION)))
REAL_NAME := libpolytwkb.so.$(VERSION)

SOURCES := crates.txt $(shell find crates -name out -prune -o \( -name '*.rt' -o -name '*.antt' \) -print)

test:
	@scripts/test.sh

check:
	scripts/check.sh

quick: lint
	scripts/docs_test.py --pages
	python3 tests/vectors/make.py --check
	cd crates/vector_runner && rt try < stdin > out/said && diff -u stdout out/said && echo "ok    the rows of tests/vectors, by a run without a proof"

layout:
	scripts/layout.sh

lint:
	scripts/lint.sh

build: bin/polytwkb

bin/polytwkb: $(SOURCES)
	@scripts/build.sh polytwkb $@

lib: out/libpolytwkb.a out/libpolytwkb.so

# The crate's archive, and the kit's object through which it calls malloc, realloc and free.
out/libpolytwkb.a: $(SOURCES)
	@scripts/build.sh twkb_c crates/twkb_c/out/libtwkb_c.a out/libpolytwkb.bc
	rm -rf out/objects $@
	mkdir -p out/objects
	cd out/objects && $(AR) x ../../crates/twkb_c/out/libtwkb_c.a && $(AR) x "$$(dirname "$$(rt doc)")/c/liblibc_c.a" heap.pic.o
	$(AR) rcs $@ out/objects/*.o

# Its file name has the full version, and two links point to it: programs find it by one and are linked by the other.
%/libpolytwkb.so: %/libpolytwkb.a include/polytwkb.map
	rm -f $*/libpolytwkb.so*
	$(CC) -shared -o $*/$(REAL_NAME) -Wl,-soname,$(SONAME) -Wl,--version-script=include/polytwkb.map -Wl,--whole-archive $< -Wl,--no-whole-archive
	ln -s $(REAL_NAME) $*/$(SONAME)
	ln -s $(SONAME) $@

# The extensions, each one file over the library's archive. In their folders are those of a version of the database.
SQL_SOURCES := $(wildcard extensions/shared/*.h) include/polytwkb.h
SQL_FLAGS := -O2 -Wall -Wextra -Werror -fPIC -shared -Iinclude -Iextensions/shared -Wl,-z,relro,-z,now
# The servers for which the extension is built: all that Debian has put there, or the one of PG_CONFIG.
PG_CONFIG ?= $(or $(wildcard /usr/lib/postgresql/*/bin/pg_config),pg_config)
SERVER_CONFIG = $(firstword $(PG_CONFIG))
SQLITE_EXTENSION := out/mod_polytwkb.so
HAS_SQLITE = $(wildcard /usr/include/sqlite3ext.h)

databases:
	@if [ -n "$(HAS_SQLITE)" ]; then $(MAKE) -s $(SQLITE_EXTENSION); else echo "left out: SQLite, as libsqlite3-dev is not there"; fi
	@found=; for config in $(PG_CONFIG); do \
	  [ -e "$$($$config --includedir-server 2> /dev/null)/postgres.h" ] || continue; \
	  major=$$($$config --version | sed 's/^PostgreSQL \([0-9]*\).*/\1/'); \
	  $(MAKE) -s out/postgresql/$$major/polytwkb.so SERVER_CONFIG=$$config || exit 1; found=1; \
	done; [ -n "$$found" ] || echo "left out: PostgreSQL, as postgresql-server-dev is not there"

out/mod_polytwkb.so: extensions/sqlite/mod_polytwkb.c $(wildcard extensions/sqlite/*.h) extensions/sqlite/mod_polytwkb.map $(SQL_SOURCES) out/libpolytwkb.a
	$(CC) -std=c11 $(SQL_FLAGS) -Wl,--version-script=extensions/sqlite/mod_polytwkb.map -o $@ $< out/libpolytwkb.a
	@echo "$@ is built"

# The flags of the server's own build, whose headers rely on some of them, but not its warnings about style. Beside the
# library is what CREATE EXTENSION reads.
out/postgresql/%/polytwkb.so: $(wildcard extensions/postgresql/polytwkb.*) $(SQL_SOURCES) out/libpolytwkb.a
	rm -rf out/postgresql/$*
	mkdir -p out/postgresql/$*
	$(CC) -std=gnu11 $$($(SERVER_CONFIG) --cflags --cppflags) $(SQL_FLAGS) -Wno-declaration-after-statement -Wno-missing-prototypes -isystem "$$($(SERVER_CONFIG) --includedir-server)" -Wl,--version-script=extensions/postgresql/polytwkb.map -o $@ extensions/postgresql/polytwkb.c out/libpolytwkb.a
	sed 's/@VERSION@/$(VERSION)/' extensions/postgresql/polytwkb.control.in > $(@D)/polytwkb.control
	cp extensions/postgresql/polytwkb.sql $(@D)/polytwkb--$(VERSION).sql
	@echo "$@ is built"

# The driver for GDAL, in a folder of its own, since the binary interface changes with each minor version of GDAL. All
# symbols of the library stay inside, and one that GDAL does not have ends the build here, and not each program of GDAL.
GDAL_MINOR := $(shell pkg-config --modversion gdal 2> /dev/null | cut -d. -f1,2)
GDAL_PLUGIN := out/gdal/$(GDAL_MINOR)/ogr_TWKB.so
GDAL_SOURCES := $(wildcard extensions/gdal/*.cpp)

gdal:
	@if [ -n "$(GDAL_MINOR)" ]; then $(MAKE) -s $(GDAL_PLUGIN); else echo "left out: GDAL, as libgdal-dev is not there"; fi

out/gdal/%/ogr_TWKB.so: $(GDAL_SOURCES) $(wildcard extensions/gdal/*.hpp) include/polytwkb.h out/libpolytwkb.a
	mkdir -p $(@D)
	$(CXX) -std=c++17 -O2 -Wall -Wextra -Werror -fPIC -shared -fvisibility=hidden -Iinclude $$(pkg-config --cflags gdal | sed 's/-I/-isystem /g') -o $@ $(GDAL_SOURCES) out/libpolytwkb.a $$(pkg-config --libs gdal) -Wl,-z,defs,-z,relro,-z,now -Wl,--exclude-libs,ALL
	@echo "$@ is built"

gdal-test: lib gdal
	scripts/gdal_test.sh

databases-test: build lib databases
	scripts/databases_test.sh $(if $(filter file,$(origin CASES)),20000,$(CASES)) $(SEED)

# The program linked once more, with the C library in it: it runs on any Linux of its processor.
static: out/static/polytwkb

out/static/polytwkb: $(SOURCES) packaging/static.sh
	@packaging/static.sh $@

# 64-bit ARM, by Debian's gcc-aarch64-linux-gnu and libc6-dev-arm64-cross.
ARM64_CC := aarch64-linux-gnu-gcc

ARM64_SOURCES := $(SOURCES) $(wildcard packaging/arm64/*.sh packaging/arm64/shims/*)

arm64: out/arm64/libpolytwkb.a out/arm64/polytwkb out/arm64/static/polytwkb
	@$(MAKE) -s out/arm64/libpolytwkb.so CC=$(ARM64_CC)

out/arm64/libpolytwkb.a: $(ARM64_SOURCES)
	@packaging/arm64/build.sh out/arm64 twkb_c

# vector_runner reads tests/vectors, for the tests alone.
out/arm64/polytwkb out/arm64/vector_runner: $(ARM64_SOURCES)
	@packaging/arm64/build.sh out/arm64 $(@F)

out/arm64/static/polytwkb: out/arm64/polytwkb
	mkdir -p out/arm64/static
	$(ARM64_CC) -static-pie -o $@ out/arm64/polytwkb.o out/arm64/shims.a

arm64-test: build lib arm64
	scripts/arm64_test.sh

# The LLVM module of the library, which comes with the archive.
out/libpolytwkb.bc: out/libpolytwkb.a
	@[ -e $@ ] || { rm $<; $(MAKE) -s $<; }
	@[ -e $@ ] && [ ! -e $@.many ] || { echo "the kit's compiler does not hand one LLVM module to clang" >&2; exit 1; }

wasm: js/polytwkb.wasm

# The library for browsers and Node, beside the JavaScript that calls it.
js/polytwkb.wasm: out/libpolytwkb.bc $(wildcard packaging/wasm/*)
	packaging/wasm/build.sh $< js

wasm-test: js/polytwkb.wasm out/libpolytwkb.so
	scripts/wasm_test.sh $(CASES) $(SEED)

# The page with its example, as a browser shows it.
picture: js/polytwkb.wasm
	@mkdir -p out/picture
	node js/tests/browser.mjs picture out/picture chromium
	cp out/picture/chromium.png docs/page.png

out/convert: examples/c/convert.c include/polytwkb.h out/libpolytwkb.a
	$(CC) -std=c11 -O1 -g -Wall -Wextra -Werror -Iinclude -o $@ $< out/libpolytwkb.a

out/arrays: examples/c/arrays.c include/polytwkb.h out/libpolytwkb.a
	$(CC) -std=c11 -O1 -g -Wall -Wextra -Werror -Iinclude -o $@ $< out/libpolytwkb.a

out/pieces: examples/c/pieces.c include/polytwkb.h out/libpolytwkb.a
	$(CC) -std=c11 -O1 -g -Wall -Wextra -Werror -Iinclude -o $@ $< out/libpolytwkb.a

# The example in C, linked to the shared library.
out/convert_shared: examples/c/convert.c include/polytwkb.h out/libpolytwkb.so
	$(CC) -std=c11 -O1 -g -Wall -Wextra -Werror -Iinclude -o $@ $< -Lout -lpolytwkb -Wl,-rpath,'$$ORIGIN'

# The example in Go, over the shared library. Go's cache does not notice a new header, so no cache is kept.
out/convert_go: examples/go/convert.go include/polytwkb.h out/libpolytwkb.so
	rm -rf out/go
	GO111MODULE=off GOCACHE='$(CURDIR)/out/go' C_INCLUDE_PATH='$(CURDIR)/include' LIBRARY_PATH='$(CURDIR)/out' go build -o $@ $<
	rm -rf out/go

out/times: bench/library/times.c include/polytwkb.h out/libpolytwkb.a
	$(CC) -std=c11 -D_GNU_SOURCE -O2 -Wall -Wextra -Werror -Iinclude -o $@ $< out/libpolytwkb.a

# Times of calls of the library, and of the package for Python.
lib-bench: out/times out/libpolytwkb.so
	out/times
	POLYTWKB_LIBRARY=out/libpolytwkb.so PYTHONPATH=python python3 -B bench/library/times.py
	python=python3; $$python -c 'import numpy, shapely' 2> /dev/null || python=/usr/bin/python3; \
	POLYTWKB_LIBRARY=out/libpolytwkb.so PYTHONPATH=python $$python -B -W ignore bench/library/columns.py

lib-test: lib out/convert out/convert_shared out/arrays out/pieces
	grep -qx '#define POLYTWKB_VERSION "$(VERSION)"' include/polytwkb.h || { echo "the header is not of version $(VERSION)" >&2; exit 1; }
	if command -v $(CXX) > /dev/null; then $(CXX) -std=c++11 -Wall -Wextra -Werror -fsyntax-only -x c++ include/polytwkb.h; fi
	out/convert
	out/convert_shared
	out/arrays
	scripts/pieces_test.sh out/pieces
	if command -v valgrind > /dev/null; then valgrind -q --error-exitcode=1 --leak-check=full out/convert && valgrind -q --error-exitcode=1 --leak-check=full out/arrays; fi
	examples/python/convert.py out/libpolytwkb.so
	if command -v go > /dev/null; then $(MAKE) -s out/convert_go && LD_LIBRARY_PATH=out out/convert_go; else echo "skip  the library in Go: go is not there"; fi

wheel: lib
	scripts/wheel.py dist

python-test: lib
	python/tests/run.sh out/libpolytwkb.so

demo:
	@scripts/demo.sh

bench: build
	bench/beside_plain.sh $(BENCH)

smoke: build
	GIGABYTES=$${GIGABYTES:-5} scripts/smoke.sh

completions-test: build
	scripts/completions_test.sh

hostile: build bin/refuse.so bin/growths bin/tests_blobs bin/tests_conversions
	tests/hostile/each_failing.py bin/polytwkb bin/refuse.so
	tests/hostile/sizes.py bin/polytwkb 64
	tests/hostile/sizes.py bin/polytwkb 1024
	tests/hostile/growths.py bin/growths bin/refuse.so bin/polytwkb
	tests/hostile/growths_of_tests.py bin/refuse.so bin/tests_blobs bin/tests_conversions

CASES ?= 100000
PROCESSES ?= 2

fuzz: build bin/refuse.so
	nice -n 10 tests/fuzz/fuzz.py --cases $(CASES) --processes $(PROCESSES) $(if $(SEED),--seed $(SEED)) --library bin/refuse.so

fuzz-library: lib
	tests/fuzz/fuzz_library.py --cases $(CASES) --processes $(PROCESSES) $(if $(SEED),--seed $(SEED)) out/libpolytwkb.so

# The library that makes a call of the program fail.
bin/refuse.so: tests/hostile/refuse.c
	mkdir -p bin
	$(CC) -O1 -shared -fPIC -o $@ $<

# The programs of tests, which `make test` takes from the gate.
bin/tests_blobs bin/tests_conversions: $(SOURCES)
	@scripts/build.sh $(@F) $@

# Counts growths. It is not a crate of the repository, so it is proved in a copy.
bin/growths: tests/hostile/growths/main.rt.in tests/hostile/growths/build.sh $(SOURCES)
	tests/hostile/growths/build.sh $@

# The files that are installed, and their places; `uninstall` removes these files, and of folders that of the pages alone.
PROGRAM_FILE := $(BINDIR)/polytwkb
PAGE_FILE := $(DATADIR)/man/man1/polytwkb.1
BASH_FILE := $(DATADIR)/bash-completion/completions/polytwkb
ZSH_FILE := $(ZSHDIR)/_polytwkb
FISH_FILE := $(DATADIR)/fish/vendor_completions.d/polytwkb.fish
DOC_DIR := $(DATADIR)/doc/polytwkb
LICENCE_FILE := $(DOC_DIR)/LICENSE
STATIC_FILE := $(LIBDIR)/libpolytwkb.a
SHARED_FILE := $(LIBDIR)/$(REAL_NAME)
SONAME_LINK := $(LIBDIR)/$(SONAME)
SHARED_LINK := $(LIBDIR)/libpolytwkb.so
PACKAGE_FILE := $(LIBDIR)/pkgconfig/polytwkb.pc
HEADER_FILE := $(INCLUDEDIR)/polytwkb.h
# Pages that are installed, beside the folders of examples/ that they name. A link to what is not installed becomes its text.
PAGES := USING RECIPES FORMATS
EXAMPLES := $(notdir $(wildcard examples/*))
LINKS_OUT := s!\[([^]]*)\]\((\.\./(README|python|js|extensions|crates|tests|include)|PERF)[^)]*\)!\1!g

# The program that is installed, and the folder of the libraries.
PROGRAM ?= bin/polytwkb
LIBRARIES ?= out

install: $(PROGRAM) $(LIBRARIES)/libpolytwkb.a $(LIBRARIES)/libpolytwkb.so
	$(INSTALL) -D -m 755 $(PROGRAM) '$(DESTDIR)$(PROGRAM_FILE)'
	$(INSTALL) -D -m 644 man/polytwkb.1 '$(DESTDIR)$(PAGE_FILE)'
	$(INSTALL) -D -m 644 completions/polytwkb.bash '$(DESTDIR)$(BASH_FILE)'
	$(INSTALL) -D -m 644 completions/_polytwkb '$(DESTDIR)$(ZSH_FILE)'
	$(INSTALL) -D -m 644 completions/polytwkb.fish '$(DESTDIR)$(FISH_FILE)'
	$(INSTALL) -D -m 644 LICENSE '$(DESTDIR)$(LICENCE_FILE)'
	$(INSTALL) -D -m 644 $(LIBRARIES)/libpolytwkb.a '$(DESTDIR)$(STATIC_FILE)'
	$(INSTALL) -D -m 755 $(LIBRARIES)/libpolytwkb.so '$(DESTDIR)$(SHARED_FILE)'
	ln -sf $(REAL_NAME) '$(DESTDIR)$(SONAME_LINK)'
	ln -sf $(SONAME) '$(DESTDIR)$(SHARED_LINK)'
	$(INSTALL) -D -m 644 include/polytwkb.h '$(DESTDIR)$(HEADER_FILE)'
	sed -e 's|@VERSION@|$(VERSION)|' -e 's|@PREFIX@|$(PREFIX)|' -e 's|@LIBDIR@|$(LIBDIR)|' -e 's|@INCLUDEDIR@|$(INCLUDEDIR)|' include/polytwkb.pc.in | $(INSTALL) -D -m 644 /dev/stdin '$(DESTDIR)$(PACKAGE_FILE)'
	@for page in $(PAGES); do sed -E -e '$(LINKS_OUT)' -e 's!\.\./examples/!../!g' docs/$$page.md | $(INSTALL) -D -m 644 /dev/stdin "$(DESTDIR)$(DOC_DIR)/docs/$$page.md" || exit 1; done
	tar -c --exclude=__pycache__ --mode=u=rwX,go=rX -C examples $(EXAMPLES) | tar -x --no-same-owner -C '$(DESTDIR)$(DOC_DIR)'

uninstall:
	rm -f '$(DESTDIR)$(PROGRAM_FILE)' '$(DESTDIR)$(PAGE_FILE)' '$(DESTDIR)$(BASH_FILE)'
	rm -f '$(DESTDIR)$(ZSH_FILE)' '$(DESTDIR)$(FISH_FILE)'
	rm -f '$(DESTDIR)$(STATIC_FILE)' '$(DESTDIR)$(SHARED_FILE)' '$(DESTDIR)$(SHARED_LINK)' '$(DESTDIR)$(SONAME_LINK)'
	rm -f '$(DESTDIR)$(PACKAGE_FILE)' '$(DESTDIR)$(HEADER_FILE)'
	rm -rf '$(DESTDIR)$(DOC_DIR)'

# Built files for users without the kit.
dist: build lib static wasm databases gdal
	scripts/dist.sh dist
	@if command -v $(ARM64_CC) > /dev/null; then $(MAKE) -s arm64 && scripts/dist.sh dist arm64; else echo "left out of dist/: 64-bit ARM, as $(ARM64_CC) is not there"; fi

dist-test: dist
	scripts/dist_test.sh

# The commands that documents show, run and compared; callers, promises, links, and the words of each page.
docs-test: build lib wasm
	scripts/docs_test.py

# The recipes and what their scripts share, the check of parts, and the recipes and this check with an installed
# program. A recipe whose tools are missing says so and is skipped.
recipes: build lib wasm
	@for recipe in tests/recipes/scripts.py examples/recipes/*.sh examples/scale/check*.sh tests/recipes/installed.sh; do echo "$$recipe"; $$recipe || exit 1; done

clean:
	rm -rf bin out dist bench/out crates/*/out js/polytwkb.wasm
