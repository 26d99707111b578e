# ldvbi: `make` proves and builds the program, `make lib` proves and builds the library for C, libldvbi.a and
# libldvbi.so, `make test` is the whole gate, `make setup` installs what `make rust` and `make check` need and the
# machine lacks, `make setup test` what the gate needs, too, and `make bench` measures program and library beside plain
# readers, for which it needs rustc, a C compiler and python3.
# The toolchain's command `rt` has to be on the PATH; `make test` needs the tools of tests/tools.sh as well. What the
# toolchain says of a crate goes to crates/NAME/out/make.log.
#
# `make rust` needs no toolchain, but python3 and cargo: it builds the same source without its contracts (docs/RUST.md),
# for another machine by `make rust TARGET=..`; `make rust-compare` compares that with what is proved.
#
# Once the program is built, these need no toolchain: `make install PREFIX=DIR` copies it and `ldvbi-side` to DIR/bin,
# the manual pages, completions, schema, the Python module, documents and examples to DIR/share (below /usr and
# /usr/local the system's python3 finds the module), and the library with its header to DIR/lib (or LIBDIR) and
# DIR/include where it is built, too; `make install-lib` installs the library alone; DESTDIR goes before all of them;
# `make uninstall PREFIX=DIR` takes all of it away; `make wheel` packs the Python module with the library for pip, and
# `make venv` puts it into a virtual environment, .venv; `make deb` makes a package of Debian's of what is installed;
# `make check PROGRAM=./ldvbi` runs the gate's scripts on the program; `make dist` packs source and what is built, with
# checksums (docs/RELEASING.md); `make peers` has other programs read what it reads, and needs mame-tools and
# libzvbi-dev; `make channel` has the library read simulated lines of worn discs, and needs python3-numpy and
# python3-scipy. With FROM=rust `install`, `install-lib`, `wheel`, `venv` and `deb` take what `make rust` built. The
# system's loader finds a library that is installed to /usr/local once `ldconfig` was run as root.

PREFIX ?= /usr/local
# Debian's is /usr/lib/x86_64-linux-gnu
LIBDIR ?= $(PREFIX)/lib
PROGRAM ?= ./$(BUILT)ldvbi
# The one place of the version; header, library, program and change log are tested against it
VERSION := 0.2.0
# The interface of the library, as include/ldvbi.h has it
ABI := 3
ROOT := $(DESTDIR)$(PREFIX)
LIBRARIES := $(DESTDIR)$(LIBDIR)
# The commands, each with its manual page and completions
COMMANDS := ldvbi ldvbi-side
MANUALS := $(ROOT)/share/man/man1
BASH_COMPLETIONS := $(ROOT)/share/bash-completion/completions
ZSH_COMPLETIONS := $(ROOT)/share/zsh/site-functions
SCHEMAS := ldvbi.schema.json ldvbi-join.schema.json ldvbi-recovered.schema.json ldvbi-scan.schema.json \
	ldvbi-side.schema.json
SHARED := $(addprefix share/schema/,$(SCHEMAS))
DOCUMENTS := $(ROOT)/share/doc/ldvbi
# Where the system's Python looks for modules below PREFIX. A file there names the folder that ours are in.
PTH = $(patsubst %,$(DESTDIR)%/ldvbi.pth,$(shell /usr/bin/python3 -c 'import site, sys; print(*[place for place in \
    site.getsitepackages() if place.startswith(sys.argv[1])][:1])' $(PREFIX)/lib/ 2> /dev/null))
PAGES := README.md CHANGELOG.md $(wildcard docs/*.md)
# A page without the comments that say what in it is made from the source
UNMARKED := sed '/^<!--.*-->$$/d; s/<!--[^>]*-->//g'
PYTHON := $(wildcard python/*/*.py python/*/*/*.py)
# What is installed and packed: what was proved and built here (proved), or what `make rust` leaves in rust/ (rust). If
# nobody says which, it is the proved one, unless only the other is there.
ASKED := $(FROM)
FROM ?= $(if $(wildcard ldvbi),proved,$(if $(wildcard rust/ldvbi),rust,proved))
BUILT := $(if $(filter rust,$(FROM)),rust/)
# Where `make wheel` puts the wheel, and `make deb` the package
WHEELS ?= dist
DEBS ?= dist
SOURCES := $(shell find crates -name out -prune -o \( -name '*.rt' -o -name '*.antt' \) -print)
LIBRARY_CRATES := $(addprefix crates/,vbi_words/% vbi_line/% vbi_near/% vbi_field/% vbi_side/% vbi_whole/% vbi_plan/% \
	vbi_story/% vbi_seek/% vbi_c/%)
LIBRARY_SOURCES := $(filter $(LIBRARY_CRATES),$(SOURCES))

# $(call proved,CRATE,COMMAND): proves and builds a crate by a command of the toolchain, and prints a line with the time
# that this took; or, where it fails, the end of the log
define proved
@mkdir -p crates/$(1)/out
@printf '%s ' $(1); log=crates/$(1)/out/make.log; began=$$(date +%s); \
if (cd crates/$(1) && $(2)) > $$log 2>&1; then \
	echo "proved, $$(($$(date +%s) - began)) s"; \
else \
	status=$$?; echo failed; tail -n 20 $$log >&2; \
	echo "make: $(1) failed; $$log has all that the toolchain said" >&2; exit $$status; \
fi
endef

# Proofs take all processors, and the program and the library have crates in common.
.NOTPARALLEL:

# How many jobs the proof of a large crate is shared among: as many as there are processors, up to four. Four work a
# third more than one, and you wait a third less. `make JOBS=1` takes the least of the processors.
PROCESSORS := $(shell nproc 2> /dev/null || echo 1)
JOBS ?= $(if $(filter 1 2 3,$(PROCESSORS)),$(PROCESSORS),4)
LARGE := --jobs $(JOBS)
SMALL := --jobs 1

# Libraries, lowest first: with one of them missing, `rt run` would first pass over the sources of all
ldvbi: crates.txt $(SOURCES)
	@$(MAKE) -s toolchain
	$(call proved,vbi_words,rt lib $(LARGE))
	$(call proved,vbi_line,rt lib $(LARGE))
	$(call proved,vbi_near,rt lib $(LARGE))
	$(call proved,vbi_field,rt lib $(LARGE))
	$(call proved,vbi_meta,rt lib $(SMALL))
	$(call proved,vbi_cli,rt lib $(LARGE))
	$(call proved,ldvbi,rt run $(SMALL) -- --help)
	cp crates/ldvbi/out/ldvbi ldvbi

lib: libldvbi.a libldvbi.so

libldvbi.a: crates.txt $(LIBRARY_SOURCES)
	@$(MAKE) -s toolchain
	$(call proved,vbi_words,rt lib $(LARGE))
	$(call proved,vbi_line,rt lib $(LARGE))
	$(call proved,vbi_near,rt lib $(LARGE))
	$(call proved,vbi_field,rt lib $(LARGE))
	$(call proved,vbi_side,rt lib $(LARGE))
	$(call proved,vbi_whole,rt lib $(LARGE))
	$(call proved,vbi_plan,rt lib $(SMALL))
	$(call proved,vbi_story,rt lib $(SMALL))
	$(call proved,vbi_seek,rt lib $(LARGE))
	$(call proved,vbi_c,rt lib $(SMALL))
	cp crates/vbi_c/out/libvbi_c.a libldvbi.a

# No start files, which have undefined symbols of their own
libldvbi.so.$(ABI): libldvbi.a
	$(CC) -shared -nostartfiles -Wl,-soname,$@ -Wl,-z,defs -Wl,-z,now -o $@ \
	    -Wl,--whole-archive libldvbi.a -Wl,--no-whole-archive

libldvbi.so: libldvbi.so.$(ABI)
	ln -sf libldvbi.so.$(ABI) libldvbi.so

test: toolchain
	@sh tests/tools.sh test
	sh tests/gate.sh

# The same source as plain Rust, for any machine: rust/ldvbi and rust/libldvbi.*, or rust/TARGET/..
rust:
	sh rust/build.sh $(TARGET)

# N times the runs of the gate; RUNNER runs the program of another machine, SEED is where the random runs begin
N := 10
SEED := 1
rust-compare:
	COMPARE_RUNS=$(N) COMPARE_SEED=$(SEED) COMPARE_RUNNER="$(RUNNER)" SCRIPT_SECONDS=86400 \
	    HARNESS_VERBOSE=1 sh tests/scripts.sh \
	    rust/$(if $(TARGET),$(TARGET)/)ldvbi$(if $(findstring windows,$(TARGET)),.exe) rust_compare

# What the gate alone needs is installed by `make setup test`.
setup:
	sh tests/tools.sh install $(filter test,$(MAKECMDGOALS))

# A folder's name is a word of make's, which ends at a space.
places:
	@[ "$(words x$(PREFIX)x x$(LIBDIR)x x$(DESTDIR)x)" = 3 ] || \
	    { echo "make: PREFIX, LIBDIR and DESTDIR can't have a space" >&2; exit 1; }
	@[ "$(filter proved rust,$(FROM))" ] || { echo "make: FROM is 'proved' or 'rust'" >&2; exit 1; }

install: places said-from $(BUILT)ldvbi $(if $(wildcard $(BUILT)libldvbi.a),install-lib)
	install -D -m 755 $(BUILT)ldvbi $(ROOT)/bin/ldvbi
	install -D -m 755 python/ldvbi-side $(ROOT)/bin/ldvbi-side
	$(foreach command,$(COMMANDS),install -D -m 644 share/man/$(command).1 $(MANUALS)/$(command).1 &&) :
	$(foreach command,$(COMMANDS),install -D -m 644 share/completions/$(command).bash $(BASH_COMPLETIONS)/$(command) &&) :
	$(foreach command,$(COMMANDS),install -D -m 644 share/completions/_$(command) $(ZSH_COMPLETIONS)/_$(command) &&) :
	install -d $(ROOT)/share/ldvbi
	install -m 644 $(SHARED) $(ROOT)/share/ldvbi
	install -d $(patsubst %/,$(ROOT)/share/ldvbi/%,$(sort $(dir $(PYTHON))))
	$(foreach module,$(PYTHON),install -m 644 $(module) $(ROOT)/share/ldvbi/$(module) &&) :
	$(foreach pth,$(PTH),install -d $(dir $(pth)) && echo $(PREFIX)/share/ldvbi/python > $(pth) && chmod 644 $(pth))
	install -d $(DOCUMENTS)/docs/pictures $(DOCUMENTS)/examples/rust/src/bin
	install -m 644 LICENSE $(DOCUMENTS)
	$(foreach page,$(PAGES),$(UNMARKED) $(page) > $(DOCUMENTS)/$(page) && chmod 644 $(DOCUMENTS)/$(page) &&) :
	install -m 644 $(wildcard docs/pictures/*.svg docs/pictures/*.png) $(DOCUMENTS)/docs/pictures
	install -m 644 $(wildcard examples/*.*) $(DOCUMENTS)/examples
	install -m 644 examples/rust/Cargo.toml $(DOCUMENTS)/examples/rust
	install -m 644 $(wildcard examples/rust/src/*.rs) $(DOCUMENTS)/examples/rust/src
	install -m 644 examples/rust/src/bin/whole.rs $(DOCUMENTS)/examples/rust/src/bin

said-from:
	@[ "$(ASKED)" ] || [ $(FROM) = proved ] || echo "make: takes what make rust built, which is tested and not proved"

# The descriptions for pkg-config and CMake find header and library from their own place, wherever that is moved, unless
# the library is put outside PREFIX.
SPACE := $(subst x,,x x)
BELOW := $(patsubst $(PREFIX)/%,%,$(filter $(PREFIX)/%,$(LIBDIR)))
UP := $(subst $(SPACE),/,$(foreach folder,$(subst /, ,$(BELOW)) pkgconfig,..))
DESCRIBED_PREFIX := $(if $(BELOW),$${pcfiledir}/$(UP),$(PREFIX))
DESCRIBED_LIBDIR := $(if $(BELOW),$${prefix}/$(BELOW),$(LIBDIR))
CMAKE_PREFIX := $(if $(BELOW),$${CMAKE_CURRENT_LIST_DIR}/../$(UP),$(PREFIX))
# The C library's parts that the archive of `make rust` needs, where they aren't in libc itself
PRIVATE := $(if $(BUILT),-lpthread -ldl)

# $(call described,FOLDER,NAME,PREFIX): installs a description below the libraries
define described
	install -d $(LIBRARIES)/$(1)
	sed -e 's|@PREFIX@|$(3)|' -e 's|@LIBDIR@|$(DESCRIBED_LIBDIR)|' -e 's|@VERSION@|$(VERSION)|' -e 's|@ABI@|$(ABI)|' \
	    -e 's|@PRIVATE@|$(PRIVATE)|' include/$(2).in > $(LIBRARIES)/$(1)/$(2)
	chmod 644 $(LIBRARIES)/$(1)/$(2)
endef

install-lib: places $(if $(BUILT),rust/libldvbi.a rust/libldvbi.so.$(ABI),lib)
	install -D -m 644 include/ldvbi.h $(ROOT)/include/ldvbi.h
	install -D -m 644 $(BUILT)libldvbi.a $(LIBRARIES)/libldvbi.a
	install -D -m 755 $(BUILT)libldvbi.so.$(ABI) $(LIBRARIES)/libldvbi.so.$(ABI)
	ln -sf libldvbi.so.$(ABI) $(LIBRARIES)/libldvbi.so
	$(call described,pkgconfig,ldvbi.pc,$(DESCRIBED_PREFIX))
	$(call described,cmake/ldvbi,ldvbi-config.cmake,$(CMAKE_PREFIX))
	$(call described,cmake/ldvbi,ldvbi-config-version.cmake,$(CMAKE_PREFIX))

uninstall: places
	rm -f $(COMMANDS:%=$(ROOT)/bin/%) $(COMMANDS:%=$(MANUALS)/%.1) $(COMMANDS:%=$(BASH_COMPLETIONS)/%) \
	    $(COMMANDS:%=$(ZSH_COMPLETIONS)/_%)
	rm -rf $(ROOT)/share/ldvbi $(DOCUMENTS) $(PTH)
	rm -f $(ROOT)/include/ldvbi.h $(LIBRARIES)/libldvbi.a $(LIBRARIES)/libldvbi.so $(LIBRARIES)/libldvbi.so.$(ABI) \
	    $(LIBRARIES)/pkgconfig/ldvbi.pc
	rm -rf $(LIBRARIES)/cmake/ldvbi

check:
	@sh tests/tools.sh
	sh tests/scripts.sh $(PROGRAM) --as-built

# What is asked for from rust/ is built by `make rust` alone.
$(addprefix rust/,ldvbi libldvbi.a libldvbi.so.$(ABI)):
	@echo "make: $@ isn't there: make rust builds it" >&2; exit 1

# The Python module with the library inside, which `pip install` takes
wheel: places said-from $(if $(BUILT),rust/libldvbi.so.$(ABI),lib)
	python3 packaging/make_wheel.py $(BUILT)libldvbi.so.$(ABI) $(WHEELS)

# A virtual environment of Python with that wheel in it, for who needs no more than `ldvbi-side`
venv: places said-from $(if $(BUILT),rust/libldvbi.so.$(ABI),lib)
	rm -rf .venv
	python3 -m venv .venv
	python3 packaging/make_wheel.py $(BUILT)libldvbi.so.$(ABI) .venv/wheel
	.venv/bin/pip install --quiet --disable-pip-version-check --no-index .venv/wheel/*.whl
	@echo "ldvbi-side is $(CURDIR)/.venv/bin/ldvbi-side; after '. .venv/bin/activate' it is ldvbi-side alone"

# A package of Debian's, which has all of it below /usr
deb: places said-from $(BUILT)ldvbi $(if $(BUILT),rust/libldvbi.so.$(ABI),lib)
	rm -rf $(DEBS)/deb
	$(MAKE) -s install FROM=$(FROM) DESTDIR=$(DEBS)/deb PREFIX=/usr LIBDIR=/usr/lib/$(shell uname -m)-linux-gnu
	sh packaging/make_deb.sh $(FROM) $(DEBS)/deb $(VERSION) $(DEBS)
	rm -r $(DEBS)/deb

# Archives of one commit and one program are the same byte for byte, whenever they are made. Uncommitted changes aren't
# in them. The source; what `make install` installs, as it is proved and as `make rust` built it, stripped; the crate
# that `make rust` wrote, in the form of those that cargo takes; wheel and package of Debian's, of what is proved, else
# of what `make rust` built. What isn't built, or is older than its source, is left out.
PACK := gzip -9n
RELEASE := ldvbi-$(VERSION)
RUST_RELEASE = $(RELEASE)-rust-$(shell uname -m)-linux

# $(call packed,FOLDER,ENDING): packs this folder of dist/ to a file with this ending, and takes it away. What cargo
# built of a crate, and where it found others on this machine, is left out. All can read it, whoever packed it.
packed = tar -C dist --sort=name --mtime="@$$(git log -1 --format=%ct)" --owner=0 --group=0 --numeric-owner \
	    --mode=go+rX,go-w --exclude=target --exclude=.cargo -cf - $(1) | $(PACK) > dist/$(1).$(2) && rm -r dist/$(1)
# Strips what is installed below this folder of dist/, if there is a tool for that
stripped = { ! command -v strip > /dev/null || strip --strip-unneeded dist/$(1)/bin/ldvbi; }
# Whether the last `make rust` was of the source as it is. It leaves the times of a crate that hasn't changed.
is_rust_current = [ -e rust/ldvbi ] && \
	    [ -z "$$(find $(SOURCES) $(wildcard rust/hand rust/*.py rust/*.sh) -type f -newer rust/ldvbi)" ]

dist:
	rm -rf dist
	mkdir dist
	git archive --prefix=$(RELEASE)/ HEAD | $(PACK) > dist/$(RELEASE).tar.gz
	@if $(MAKE) -q ldvbi 2> /dev/null; then \
		$(MAKE) -s install FROM=proved DESTDIR=dist/ PREFIX=$(RELEASE)-x86_64-linux && \
		$(call stripped,$(RELEASE)-x86_64-linux) && $(call packed,$(RELEASE)-x86_64-linux,tar.gz); \
	else \
		echo "the program isn't built, or is older than its source: it isn't packed"; \
	fi
	@if $(is_rust_current); then \
		$(MAKE) -s install FROM=rust DESTDIR=dist/ PREFIX=$(RUST_RELEASE) && \
		$(call stripped,$(RUST_RELEASE)) && $(call packed,$(RUST_RELEASE),tar.gz) && \
		cp -r rust/crate dist/$(RELEASE) && $(call packed,$(RELEASE),crate); \
	fi
	@if $(MAKE) -q ldvbi lib 2> /dev/null; then from=proved; \
	elif [ -e rust/libldvbi.so.$(ABI) ] && $(is_rust_current); then from=rust; \
	else exit 0; fi; \
	$(MAKE) -s wheel FROM=$$from WHEELS=dist && \
	    { ! command -v dpkg-deb > /dev/null || $(MAKE) -s deb FROM=$$from DEBS=dist; }
	cd dist && sha256sum ldvbi* > SHA256SUMS

bench: ldvbi lib rust
	sh bench/all.sh ./ldvbi

peers:
	sh bench/peers/compare.sh $(PROGRAM) 200 docs/measured/peers.txt

# The library beside the program, or the one at the top
channel:
	sh bench/channel/tables.sh $(firstword $(wildcard $(dir $(PROGRAM))libldvbi.so.$(ABI)) libldvbi.so.$(ABI)) \
	    docs/measured/channel

# Plants errors, and says which no test sees: in a part of the places (PART=n), in a folder (FOLDER=python/ldvbi, or
# rust/hand, include, share ..), or those with these names (AGAIN=name)
mutants:
	/usr/bin/python3 tests/mutants.py --jobs $(PROCESSORS) $(PART:%=--part %) $(FOLDER:%=--folder %) $(AGAIN:%=--again %)

clean:
	rm -rf ldvbi libldvbi.a libldvbi.so libldvbi.so.$(ABI) dist .venv
	rm -rf crates/*/out rust/out rust/crate rust/ldvbi rust/libldvbi.* rust/*-*-*

toolchain:
	@command -v rt > /dev/null || { \
	    echo "make: the proved build needs the toolchain of Rattle, whose command rt is not on the PATH" >&2; \
	    echo "make: without it: make rust && make install FROM=rust" >&2; exit 1; }

.PHONY: lib test rust rust-compare setup places said-from install install-lib uninstall check wheel venv deb dist
.PHONY: bench peers channel mutants clean toolchain
