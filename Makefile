# Needs rt (Rattle's command) on the PATH, make, bash and python3; make test and make refuse need cc and binutils too.

SHELL := bash
.SHELLFLAGS := -eu -o pipefail -c
.DEFAULT_GOAL := help
.DELETE_ON_ERROR:
.PHONY: help build run try install uninstall dist deb deb-test deb-trial clean distclean quick sum doc test proofs refusals trials c-trials wrong-bodies scenarios program-scenarios docs c-library c-install c-test c-bench python wheel python-test fetch fetch-install fetch-test fetch-bench nbd nbd-install nbd-test nbd-bench bench refuse replaced memory stress statement cites fmt FORCE

PREFIX ?= /usr/local
bindir ?= $(PREFIX)/bin
libdir ?= $(PREFIX)/lib
includedir ?= $(PREFIX)/include
datadir ?= $(PREFIX)/share
mandir ?= $(datadir)/man

# The processor level that programs are built for: x86-64-v3 where this machine has what the level
# needs, AVX2 and BMI2 among it.
ifeq ($(origin CPU),undefined)
V3_NEEDS := abm avx2 bmi1 bmi2 f16c fma movbe
CPU := $(if $(filter-out $(sort $(shell cat /proc/cpuinfo 2>/dev/null)),$(V3_NEEDS)),x86-64,x86-64-v3)
endif

# Crates of which nothing goes into the program.
ASIDE := bao_bind bao_plan berylwool text_scenarios store_scenarios crew_scenarios examples $(notdir $(wildcard crates/tests_* crates/determined_*))

# The files and folders whose change asks for a new proof. With the folders, a file that was taken
# away is seen too.
SOURCES := crates.txt HANDLES $(filter-out $(foreach it,$(ASIDE),crates/$(it)/%),$(shell shopt -s globstar nullglob; echo crates/*/{src,specs,proofs}/**))

help:
	@echo 'make build                proves the program bao_gather and builds it, as out/bao_gather'
	@echo 'make run ARGS="WORD .."   builds where something changed, and runs bao_gather on the words'
	@echo 'make try ARGS="WORD .."   runs bao_gather within minutes, unproved, in the folder crates/bao_gather'
	@echo 'make sum                  prints the checksum of the built bao_gather'
	@echo 'make doc                  makes out/doc out of the sources, within seconds and without rt: what each call promises, the definitions in'
	@echo '                          words, the crates, statuses, the C reference, what was measured, manual pages and completions'
	@echo 'make install PREFIX=DIR   copies bao_gather to DIR/bin, its manual page and completions to DIR/share (PREFIX is /usr/local if'
	@echo '                          left out; bindir, libdir, includedir, datadir and mandir put files elsewhere; DESTDIR goes before all)'
	@echo 'make uninstall PREFIX=DIR removes what make install, make c-install, make fetch-install and make nbd-install copied, with the'
	@echo '                          same variables'
	@echo 'make dist                 makes a release of a commit, as the folder out/dist and as an archive: programs and the C library'
	@echo '                          for both processor levels, a wheel, manual pages, completions, checksums (needs cc and binutils)'
	@echo 'make deb                  makes Debian packages in out/deb, of both processor levels: berylwool, libberylwool0, libberylwool-dev,'
	@echo '                          python3-berylwool, nbdkit-plugin-berylwool (needs dpkg-dev, cc and binutils; for bw-fetch also libcurl'
	@echo '                          with its headers, and for the plugin nbdkit with its headers too)'
	@echo 'make deb-test             installs them in an empty root, uses them there, and removes them'
	@echo 'make quick                checks within minutes what needs no proof, and runs scenarios and examples with an unproved program'
	@echo 'make test                 the gate: a look at laws, wrong bodies and links, make doc, what make scenarios does, rt ci (every'
	@echo '                          proof from nothing, the must-fail edits, the tests and the programs), and beside it what make'
	@echo '                          docs, make refuse, make replaced, make memory, make c-test, make python-test, make fetch-test, make nbd-test and'
	@echo '                          make deb-test do'
	@echo 'make wrong-bodies         tries the wrong bodies, those that the gate leaves out too, of all crates or of CRATES="NAME .."'
	@echo 'make docs                 runs the shell examples of the documents, and looks at their links'
	@echo 'make statement CALL="b3tree::hash" prints a contract, of a call, a type or a crate, with every definition'
	@echo '                          behind it, in reading order'
	@echo 'make cites NAME=IsPiece   prints what cites a definition'
	@echo 'make scenarios            holds the replies of all scenarios to those that the definitions alone give'
	@echo 'make program-scenarios    runs the program on the lines of its scenarios, and compares what it prints and writes with their replies'
	@echo 'make c-library            proves the C library and builds it, as out/libberylwool.a and .so (needs cc and binutils)'
	@echo 'make c-install PREFIX=DIR copies the C library to DIR/lib for both processor levels, its header to DIR/include and its'
	@echo '                          manual pages to DIR/share/man, with what pkg-config asks for'
	@echo 'make c-test               holds c/berylwool.h to the sources, and runs the C tests, under what is installed of'
	@echo '                          sanitizers, valgrind, clang and rustc'
	@echo 'make c-bench              measures calls of the C library in one thread, and prints their times'
	@echo 'make python               puts the Python module with the C library into out/python, for PYTHONPATH'
	@echo 'make wheel                makes a wheel of both in out, for the processor level that its name says'
	@echo 'make python-test          runs the tests of the Python module (the one of refused memory needs cc)'
	@echo 'make fetch                builds bw-fetch, which gathers a blob over HTTP, as out/bw-fetch, over the C library (needs cc,'
	@echo '                          pkg-config and libcurl with its headers), or with BERYLWOOL=installed over an installed one; with'
	@echo '                          libmicrohttpd and its headers it also serves what it fetches'
	@echo 'make fetch-install PREFIX=DIR copies bw-fetch to DIR/bin, its manual page to DIR/share/man'
	@echo 'make fetch-test           runs bw-fetch against hostile mirrors on loopback, under what is installed of sanitizers;'
	@echo '                          DRAWN=N for another number of fetches from drawn mirrors than 4000'
	@echo 'make fetch-bench          measures bw-fetch beside curl, b3sum and aria2c, on loopback and over links of 10 and 100 Mbit/s'
	@echo '                          (needs nginx), and machines that fetch from each other beside BitTorrent'
	@echo 'make nbd                  builds the nbdkit plugin berylwool, which reads a blob while it is fetched, as'
	@echo '                          out/nbdkit-berylwool-plugin.so, as make fetch builds bw-fetch (needs also nbdkit with its headers)'
	@echo 'make nbd-install          copies it to the folder of nbdkit'"'"'s plugins, or to nbdkitdir=DIR, and its manual page to DIR/share/man'
	@echo 'make nbd-test             reads through nbdkit from hostile mirrors on loopback, with nbdcopy and qemu-img where they are installed'
	@echo 'make nbd-bench            measures the plugin beside that for curl (needs nginx, nbdcopy and that plugin)'
	@echo 'make bench                measures times and prints them with their ratios, beside b3sum where it is installed and'
	@echo '                          beside what is wanted; with RECORD=1 it adds them to bench/history.tsv'
	@echo 'make refuse               runs the tests of the libraries and each task where holders lie, and with one allocation, read,'
	@echo '                          write or other call failing after another (needs cc and binutils)'
	@echo 'make replaced             runs the program with an OUT of each kind, and looks at what stands there afterwards,'
	@echo '                          and beside it'
	@echo 'make memory               runs the program where holders are large, many or endless, and holds it to bounds of memory'
	@echo '                          and of what it reads (needs cc)'
	@echo 'make stress               runs the tests that start threads 200 times, many at once'
	@echo 'make fmt                  lays out the files of each crate'
	@echo 'make clean                removes out/; make distclean also what rt keeps of its proofs, in crates/*/out'
	@echo 'CPU=x86-64 or CPU=x86-64-v3 picks the processor level, which is $(CPU) if left out;'
	@echo 'LEVELS="x86-64 .." those of make dist, make deb and make c-install;'
	@echo 'JOBS=N is the number of jobs of a proof, or of wrong bodies at a time'

build: out/bao_gather

run: out/bao_gather
	@out/bao_gather $(ARGS)

try:
	@echo 'Not proved: for a first look.' >&2
	@cd crates/bao_gather && rt try -- $(ARGS)

sum: out/bao_gather
	@sha256sum out/bao_gather

doc:
	@python3 scripts/doc

# What is installed, released and packaged is in packaging/files.txt.
INSTALLED = 'DESTDIR=$(DESTDIR)' 'prefix=$(PREFIX)' 'bindir=$(bindir)' 'libdir=$(libdir)' 'includedir=$(includedir)' 'datadir=$(datadir)' 'mandir=$(mandir)'

install: out/bao_gather doc
	@python3 scripts/dist.py install $(INSTALLED) program

# The manual pages of make doc say which pages were installed.
uninstall: doc
	@python3 scripts/dist.py uninstall $(INSTALLED) $(MADE) program fetch library $(if $(nbdkitdir),'nbdkitdir=$(nbdkitdir)' nbd)

# The processor levels of a release and of packages, the first of which every processor has that they are for. x86-64-v3 wants a machine that has it.
LEVELS ?= x86-64 x86-64-v3
MADE = $(foreach it,$(LEVELS),$(it)=out/levels/$(it))

# $(call levels,FILE) makes the file for each level, one after another, since each is built as out/FILE.
levels = +@for level in $(LEVELS); do $(MAKE) --no-print-directory out/levels/$$level/$1; done

FIRST = out/levels/$(firstword $(LEVELS))

# $(call with_fetch,LIBRARY) builds bw-fetch over a library of the first level, and sets fetch, if libcurl is installed.
with_fetch = fetch=; if $(HAS_CURL); then fetch=fetch; $(MAKE) --no-print-directory out/bw-fetch BERYLWOOL=$(FIRST)/$1; \
    else echo 'left out: bw-fetch, since libcurl with its headers is not installed here'; fi

# $(call with_nbd,LIBRARY) does the same with the plugin, and sets nbd.
with_nbd = nbd=; if $(HAS_CURL) && $(HAS_NBDKIT); then nbd=nbd; $(MAKE) --no-print-directory out/nbdkit-berylwool-plugin.so BERYLWOOL=$(FIRST)/$1; \
    else echo 'left out: the nbdkit plugin, since nbdkit with its headers is not installed here'; fi

dist: doc
	$(call levels,bao_gather)
	$(call levels,libberylwool.so)
	@rm -f $(FIRST)/*.whl; python3 python/make_wheel.py $(FIRST)/libberylwool.so $(FIRST)
	@$(call with_fetch,libberylwool.a SERVES=); python3 scripts/dist.py dist $(MADE) program library python $$fetch

HAS_DPKG = command -v dpkg-shlibdeps > /dev/null

# Debian's flags for what is C. bw-fetch and the plugin are linked to the library of its package.
deb: doc
	@$(HAS_DPKG) || { echo 'make deb needs dpkg-dev.' >&2; exit 1; }
	$(call levels,bao_gather)
	@eval "$$(dpkg-buildflags --export=sh)"; export LDFLAGS="$$LDFLAGS -Wl,-z,now"; \
	    for file in $(LEVELS:%=out/levels/%/libberylwool.so) out/launcher; do $(MAKE) --no-print-directory "$$file"; done; \
	    $(call with_fetch,libberylwool.so); $(call with_nbd,libberylwool.so); python3 scripts/dist.py deb $(MADE) program library python $$fetch $$nbd

deb-test: deb
	@packaging/test out/deb/*.deb

# What the gate has built is of one level.
CAN_INSTALL = $(HAS_DPKG) && dpkg --status python3 pkg-config > /dev/null 2>&1 \
    && unshare --map-root-user --mount mount -t overlay overlay -o lowerdir=packaging:/usr /usr 2> /dev/null

deb-trial:
	@if $(CAN_INSTALL); then $(MAKE) --no-print-directory deb-test LEVELS=$(CPU); \
	    else echo "left out: make deb-test, which needs Debian's dpkg-dev, python3 and pkg-config, and a user who may mount over /usr in a namespace"; fi

out/launcher: packaging/launcher.c out/flags
	@cc -std=c11 -O2 -Wall -Wextra -DPROGRAMS='"/usr/libexec/berylwool"' $(CPPFLAGS) $(CFLAGS) $(LDFLAGS) $< -o $@

clean:
	rm -rf out

distclean: clean
	rm -rf crates/*/out

quick: doc
	@python3 scripts/quick.py

# What rt ci leaves is the program that it proved, and the libraries that the C library is built over.
test:
	@python3 scripts/laws.py
	@python3 scripts/wrong_bodies.py --read --strict
	@python3 scripts/uncited.py
	@python3 scripts/tests -k Links documents
	@python3 scripts/doc
	@$(MAKE) --no-print-directory -j 3 proofs scenarios refusals
	@for it in crates/bao_gather/out/bao_gather{,.by-rattle}; do BAO_GATHER=$$it python3 scripts/tests scenarios; done

# The parts of make test that take long, some at a time, so that no processor waits for one of them. What needs no proof takes what
# rt ci leaves, and so do the trials of the program and of the C library, each from when the libraries are proved that it stands on.
proofs:
	@python3 scripts/ci.py

refusals:
	@nice -n 10 python3 scripts/tests libraries

trials:
	@python3 scripts/proved_by_ci.py bao_gather
	@$(MAKE) --no-print-directory out/bao_gather
	@nice -n 5 python3 scripts/tests memory scenarios documents refused terminal replaced

c-trials:
	@python3 scripts/proved_by_ci.py berylwool
	@nice -n 5 $(MAKE) --no-print-directory c-library
	@if $(HAS_CURL); then fetch=fetch-test; else fetch=; echo 'left out: make fetch-test, since libcurl with its headers is not installed here'; fi; \
	    if $(HAS_CURL) && $(HAS_NBDKIT); then nbd=nbd-test; else nbd=; echo 'left out: make nbd-test, since nbdkit with its headers is not installed here'; fi; \
	    if $(HAS_CTYPES); then python=python-test; else python=; echo 'left out: make python-test, since python3 has no ctypes here'; fi; \
	    $(MAKE) --no-print-directory -j 2 --output-sync=recurse c-test $$python $$fetch $$nbd

wrong-bodies:
	@python3 scripts/wrong_bodies.py $(if $(JOBS),--jobs $(JOBS)) $(CRATES)

scenarios:
	@nice -n 10 python3 scripts/scenarios.py

program-scenarios: out/bao_gather
	@python3 scripts/tests scenarios

docs: out/bao_gather
	@python3 scripts/tests documents

# BLAKE3's own C sources, as Debian's librust-blake3-dev has them.
BLAKE3_C := $(lastword $(sort $(wildcard /usr/share/cargo/registry/blake3-*/c)))

# With the C library where there is a C compiler, and with BLAKE3's own where that is there, too.
bench: out/bao_gather $(if $(shell command -v cc),out/c/compare $(if $(BLAKE3_C),out/pieces))
	@python3 scripts/bench.py $(if $(RECORD),--record)

refuse: out/bao_gather
	@python3 scripts/tests libraries refused terminal

replaced: out/bao_gather
	@python3 scripts/tests replaced

memory: out/bao_gather
	@python3 scripts/tests memory

stress: export CRATES ?= tests_libraries tests_program
stress:
	@for it in $(CRATES); do (cd "crates/$$it" && rt test); done
	@STRESS=1 python3 scripts/tests --lanes $$((3 * $$(nproc))) stress

# CALL and NAME by the environment, so that a quote in them stays a word.
statement: export SAID := $(CALL)
statement:
	@python3 scripts/statement.py $$SAID

cites: export SAID := $(NAME)
cites:
	@python3 scripts/statement.py --cites $$SAID

fmt:
	@for crate in crates/*/; do (cd "$$crate" && rt fmt); done

# The level that the programs in out/ were built for, and the flags of their C. The files change only where these do.
out/cpu: export SAID = $(CPU)
out/flags: export SAID = $(CPPFLAGS) $(CFLAGS) $(LDFLAGS)
out/fetch-flags: export SAID = $(BERYLWOOL) $(SERVES)
out/cpu out/flags out/fetch-flags: FORCE
	@mkdir -p out
	@[[ -f $@ && "$$(< $@)" == "$$SAID" ]] || echo "$$SAID" > $@

# $(call built,CRATE,WORDS) proves the program CRATE and all that it stands on, builds it as out/CRATE
# and runs it once on WORDS, in the crate's folder. What rt prints goes to out/CRATE.log.
define built
@echo 'Proving and building $1 for $(CPU). The first time takes minutes (out/$1.log tells more).' >&2
@$(if $(JOBS),RT_JOBS=$(JOBS)) python3 scripts/prove_lanes.py $1 >&2
@(cd crates/$1 && rt run --cpu=$(CPU) $(if $(JOBS),--jobs $(JOBS)) -- $2) > out/$1.log 2>&1 \
    || { cat out/$1.log >&2; echo '$1 was not proved and built.' >&2; exit 1; }
@install -m 755 crates/$1/out/$1 out/$1
endef

out/bao_gather: out/cpu $(SOURCES)
	$(call built,bao_gather,--version)

# The C library stands on these, of which bao_bind and bao_plan aren't in SOURCES.
C_SOURCES := $(SOURCES) $(shell shopt -s globstar nullglob; echo crates/{bao_bind,bao_plan,berylwool}/{src,specs,proofs}/**)

# Where the kit's three functions over malloc lie.
KIT_C = $(dir $(shell rt doc))c/liblibc_c.a

out/c/berylwool.o: out/cpu $(C_SOURCES)
	@echo 'Proving and building berylwool for $(CPU). The first time takes minutes (out/berylwool.log tells more).' >&2
	@$(if $(JOBS),RT_JOBS=$(JOBS)) python3 scripts/prove_lanes.py berylwool >&2
	@(cd crates/berylwool && rt lib --cpu=$(CPU) $(if $(JOBS),--jobs $(JOBS))) > out/berylwool.log 2>&1 \
	    || { cat out/berylwool.log >&2; echo 'berylwool was not proved and built.' >&2; exit 1; }
	@rm -rf out/c && mkdir -p out/c
	@cd out/c && ar x ../../crates/berylwool/out/libberylwool.a berylwool.o

# One object that shows the bw_ functions alone, so that two such libraries in one program don't meet. Of C there are the words of the statuses, and
# the kit's three functions over malloc.
out/libberylwool.a: out/c/berylwool.o out/flags c/strerror.c c/berylwool.h
	@cd out/c && ar x $(KIT_C) heap.pic.o
	@cc -std=c11 -O2 -Wall -Wextra $(CPPFLAGS) $(CFLAGS) -fPIC -Ic -c c/strerror.c -o out/c/strerror.o
	@ld -r -o out/c/bw.o out/c/berylwool.o out/c/heap.pic.o out/c/strerror.o
	@objcopy --wildcard --keep-global-symbol='bw_*' out/c/bw.o
	@rm -f $@ && ar rcs $@ out/c/bw.o

# Each name has the version BERYLWOOL_0.2, of the interface, and is looked up when the library is loaded.
out/libberylwool.so: out/libberylwool.a c/berylwool.map
	@cc -shared -o $@ -Wl,--whole-archive $< -Wl,--no-whole-archive -Wl,-soname,libberylwool.so.0 -Wl,--version-script,c/berylwool.map \
	    -Wl,-z,defs -Wl,-z,now $(LDFLAGS)

c-library: out/libberylwool.a out/libberylwool.so

out/levels/%/bao_gather: $(SOURCES)
	@$(MAKE) --no-print-directory CPU=$* out/bao_gather
	@install -D -m 755 out/bao_gather $@

out/levels/%/libberylwool.so: out/flags c/strerror.c c/berylwool.h c/berylwool.map $(C_SOURCES)
	@$(MAKE) --no-print-directory CPU=$* c-library
	@mkdir -p $(@D) && install -m 644 out/libberylwool.a out/libberylwool.so $(@D)

c-install: doc
	$(call levels,libberylwool.so)
	@python3 scripts/dist.py install $(INSTALLED) $(MADE) library

c-test: c-library doc
	@python3 scripts/tests c_library c_texts c_plans c_windows

HAS_CTYPES := python3 -c 'import ctypes' 2>/dev/null

# The Python module needs no build: it loads the shared library by ctypes.
python: c-library
	@rm -rf out/python
	@install -D -m 644 -t out/python/berylwool python/berylwool/*.py python/berylwool/py.typed
	@install -m 755 out/libberylwool.so out/python/berylwool/libberylwool.so.0

wheel: c-library
	@python3 python/make_wheel.py out/libberylwool.so out $(CPU)

python-test: c-library
	@BERYLWOOL_LIBRARY='$(CURDIR)/out/libberylwool.so' python3 scripts/tests python/tests

# BLAKE3's own library, held to AVX2.
out/pieces: c/pieces.c
	@mkdir -p out
	@cc -std=c11 -O3 -DBLAKE3_NO_AVX512 -I$(BLAKE3_C) $< $(BLAKE3_C)/blake3.c $(BLAKE3_C)/blake3_dispatch.c $(BLAKE3_C)/blake3_portable.c \
	    $(foreach it,sse2 sse41 avx2,$(BLAKE3_C)/blake3_$(it)_x86-64_unix.S) -o $@

out/c/compare: c/compare.c c/berylwool.h c/tests.h out/libberylwool.a
	@cc -std=c11 -O2 -Wall -Wextra -Wpedantic -pthread -Ic $< out/libberylwool.a -o $@

c-bench: c-library
	@cc -std=c11 -O2 -Wall -Wextra -Ic c/bench.c out/libberylwool.a -o out/c/bench && out/c/bench

# bw-fetch is C on the C library and libcurl, and isn't proved. Whether libcurl is there is asked before the C library is proved.
HAS_CURL := pkg-config --atleast-version=7.68.0 libcurl 2>/dev/null
NEEDS_CURL = @$(HAS_CURL) || { echo 'bw-fetch needs pkg-config and libcurl 7.68 or later with its headers (of Debian: pkg-config libcurl4-openssl-dev).' >&2; exit 1; }
FETCH_FLAGS := -std=c11 -O2 -Wall -Wextra -pthread -D_FILE_OFFSET_BITS=64

# The C library of bw-fetch: the one that is built here or, with BERYLWOOL=installed and where there is no rt, the one that pkg-config finds.
BERYLWOOL ?= $(if $(shell command -v rt),out/libberylwool.a,installed)
IS_INSTALLED = $(filter installed,$(BERYLWOOL))

# It serves others if libmicrohttpd with its headers is there (of Debian: libmicrohttpd-dev), or not with an empty SERVES, as in archives of a release,
# which run where that isn't; then --serve is refused.
SERVES ?= $(shell pkg-config --exists libmicrohttpd 2>/dev/null && echo libmicrohttpd)
FETCH_NEEDS = libcurl $(if $(IS_INSTALLED),berylwool)

out/bw-fetch: $(wildcard fetch/*.c fetch/*.h) c/berylwool.h out/flags out/fetch-flags $(filter-out installed,$(BERYLWOOL))
	@cc $(FETCH_FLAGS) $(if $(SERVES),-DBW_SERVES) $(if $(IS_INSTALLED),,-Ic) $(CPPFLAGS) $(CFLAGS) $$(pkg-config --cflags $(FETCH_NEEDS) $(SERVES)) \
	    $(filter %.c %.a %.so,$^) $(LDFLAGS) $$(pkg-config --libs $(FETCH_NEEDS) $(SERVES)) -o $@

fetch:
	$(NEEDS_CURL)
	@$(MAKE) --no-print-directory out/bw-fetch

fetch-install: fetch doc
	@python3 scripts/dist.py install $(INSTALLED) fetch

fetch-test:
	$(NEEDS_CURL)
	@$(MAKE) --no-print-directory out/libberylwool.a
	@python3 fetch/tests/all.py $(DRAWN)

fetch-bench: fetch
	@python3 fetch/tests/links.py out/bw-fetch
	@python3 fetch/tests/measure.py out/bw-fetch
	@cc -std=c11 -O1 -Ic fetch/tests/mkbao.c $(or $(filter-out installed,$(BERYLWOOL)),-lberylwool) -o out/mkbao && python3 fetch/tests/swarm.py out/bw-fetch out/mkbao

# The plugin for nbdkit shares sources with bw-fetch, and isn't proved either. nbdkit loads it by name: it shows nothing but its entry, and stays loaded
# where a name server hangs at the end.
HAS_NBDKIT := pkg-config --atleast-version=1.30 nbdkit 2>/dev/null && command -v nbdkit > /dev/null
NEEDS_NBDKIT = @$(HAS_NBDKIT) || { echo 'The plugin needs pkg-config and nbdkit 1.30 or later with its headers (of Debian: nbdkit nbdkit-plugin-dev).' >&2; exit 1; }
NBD_FLAGS := -shared -fPIC -fvisibility=hidden -Wl,--exclude-libs,ALL -Wl,-z,nodelete
NBD_SOURCES := $(wildcard nbd/*.c) $(patsubst %,fetch/%.c,answer file http pool tree url words)
NBD_NEEDS = $(FETCH_NEEDS) nbdkit
nbdkitdir ?= $(shell pkg-config --variable=plugindir nbdkit)

out/nbdkit-berylwool-plugin.so: $(NBD_SOURCES) nbd/nbd.h $(wildcard fetch/*.h) c/berylwool.h out/flags out/fetch-flags $(filter-out installed,$(BERYLWOOL))
	@cc $(FETCH_FLAGS) $(NBD_FLAGS) $(if $(IS_INSTALLED),,-Ic) $(CPPFLAGS) $(CFLAGS) $$(pkg-config --cflags $(NBD_NEEDS)) $(filter %.c %.a %.so,$^) \
	    $(LDFLAGS) $$(pkg-config --libs $(NBD_NEEDS)) -o $@

nbd:
	$(NEEDS_CURL)
	$(NEEDS_NBDKIT)
	@$(MAKE) --no-print-directory out/nbdkit-berylwool-plugin.so

nbd-install: nbd doc
	@python3 scripts/dist.py install $(INSTALLED) 'nbdkitdir=$(nbdkitdir)' nbd

nbd-test: nbd
	@$(MAKE) --no-print-directory out/libberylwool.a
	@python3 scripts/tests nbd/tests

nbd-bench: nbd
	@python3 nbd/tests/measure.py
