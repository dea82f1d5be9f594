# Builds, installs and packs Doorvervain. docs/INSTALL.md says what goes where.
#
#   make [UNPROVED=1]                      builds the programs, the C library, the module for Python, the crate for Rust and the mount:
#                                          with UNPROVED=1 all of it without proofs, in a few minutes; else from what the gate proved
#   make install [UNPROVED=1] PREFIX=DIR   installs them below DIR, /usr/local if none is named; DESTDIR=DIR puts all below another root
#   make uninstall PREFIX=DIR              removes the same files
#   make test                              runs most tests without proofs, in ten minutes (tests/quick)
#   make prove                             proves everything and runs all tests, an hour at first (.ci/run)
#   make dist [UNPROVED=1]                 packs one file to unpack elsewhere, out/dist/doorvervain-RELEASE-linux-MACHINE.tar.gz
#   make UNPROVED=1 races                  builds the C library for a sanitizer of threads, which examples/run uses where it is there
#   make needs                             installs by apt what the parts need, on Debian: compilers, headers, libfuse3
#   make clean                             removes what was built here, but nothing that the gate proved
#   make help                              prints this
#
# A part that cannot be built on this machine is left out with a line that says why. dist fails then, unless WITHOUT names the part, as
# WITHOUT='mount python'. dist also records the gate's last line on the commit: GATE='N passed, 0 failed', or GATE_FILE=FILE.
# BETR=, DELTAS=, ARCHIVE= and HEAP= name other programs and libraries than those built here.
PREFIX ?= /usr/local
DESTDIR ?=
override PREFIX := $(abspath $(PREFIX))
override DESTDIR := $(if $(DESTDIR),$(abspath $(DESTDIR)))
UNPROVED ?=
GATE ?=
GATE_FILE ?=
WITHOUT ?=

# Who has Python.h, for the module of the package.
PYTHON ?= /usr/bin/python3
CARGO ?= cargo

# A program that is named explicitly is not known to be proved.
NAMED := $(foreach it,BETR DELTAS,$(if $(filter undefined,$(origin $(it))),,$(it)))

ifneq ($(filter-out 0 no,$(UNPROVED)),)
OUT := out/unproved
BETR ?= $(OUT)/betr
DELTAS ?= $(OUT)/deltas
ARCHIVE ?= $(OUT)/libdoorvervain.a
else
OUT := out
BETR ?= crates/betr/out/betr
DELTAS ?= crates/delta_tool/out/delta_tool
ARCHIVE ?= crates/doorvervain/out/libdoorvervain.a
endif
# malloc, realloc and free for the library: the toolchain has them.
HEAP ?= $(dir $(shell rt doc 2> /dev/null))c/liblibc_c.a

# As many parts at once as there are processors: what is built of the crates without proofs takes 3 GB, a file in C or Rust far less. A -j of
# the caller wins.
ifeq ($(MAKELEVEL),0)
MAKEFLAGS += -j$(shell nproc)
endif

RELEASE := $(shell sed -n 's/^.define DOORVERVAIN_VERSION "\(.*\)"/\1/p' include/doorvervain.h)
# Below 1.0.0 each minor release may change the interface, so the soname has it: libdoorvervain.so.0.2.
SONAME := libdoorvervain.so.$(basename $(RELEASE))
SHARED := libdoorvervain.so.$(RELEASE)
MANUAL := $(OUT)/man/betr.1 $(OUT)/man/doorvervain.3
LIBRARIES := $(OUT)/lib/libdoorvervain.a $(OUT)/lib/$(SHARED) $(OUT)/include/doorvervain.h

# Why a part is left out; empty if it is built. Who names a program by BETR need not have the other.
NO_DELTAS := $(if $(filter BETR,$(NAMED)),$(if $(wildcard $(DELTAS)),,$(DELTAS) is not there))
NO_PYTHON := $(shell $(PYTHON) -c 'import os, sysconfig; print("" if os.path.exists(sysconfig.get_path("include") + "/Python.h") else \
    "$(PYTHON) has no Python.h (python3-dev)")' 2> /dev/null || echo '$(PYTHON) is not installed')
NO_RUST := $(shell command -v $(CARGO) > /dev/null || echo '$(CARGO) is not installed')
NO_MOUNT := $(shell pkg-config --exists fuse3 libcrypto 2> /dev/null || echo 'libfuse3-dev or libssl-dev is not installed')
MODULE := $(if $(NO_PYTHON),,$(OUT)/python/_core.abi3.so)
CRATE := $(if $(NO_RUST),,$(OUT)/rust.built)

# The prefix in doorvervain.pc.
PC_PREFIX ?= $(PREFIX)
TO = $(DESTDIR)$(PREFIX)
SHARE = $(TO)/share/doorvervain
DOCUMENTS := docs/INSTALL.md docs/C_LIBRARY.md docs/PYTHON.md docs/PROFILE.md docs/FORMATS.md CHANGELOG.md
LEFT_OUT := --exclude=__pycache__ --exclude=target --exclude=out --exclude='*.egg-info' --exclude='*.so' --exclude=.pytest_cache
STAMP = GATE='$(GATE)' GATE_FILE='$(GATE_FILE)' PROGRAMS='$(if $(strip $(NAMED)),$(strip $(NAMED)) named explicitly)' packaging/stamp

all: $(BETR) $(if $(NO_DELTAS),,$(DELTAS)) libraries $(MANUAL) $(MODULE) $(CRATE) $(if $(NO_MOUNT),,mount)
	@$(if $(NO_DELTAS),echo 'program deltas: left out: $(NO_DELTAS)')
	@$(if $(NO_PYTHON),echo 'module for Python: left out: $(NO_PYTHON); pip compiles it')
	@$(if $(NO_RUST),echo 'crate for Rust: not tried: $(NO_RUST)')
	@$(if $(NO_MOUNT),echo 'mount: left out: $(NO_MOUNT)')
	@echo 'built: $(OUT): '"$$(packaging/stamp --line $(ARCHIVE))"

libraries: $(LIBRARIES) $(MODULE)

# ---- what takes minutes without proofs, and an hour with them

ifeq ($(OUT),out/unproved)
# One pass over the crates gives all three. Before release 4.3 make would run it for each.
$(if $(filter grouped-target,$(.FEATURES)),,$(error GNU make 4.3 or a later one is needed))
$(OUT)/betr $(OUT)/deltas $(OUT)/libdoorvervain.a &: $(shell packaging/sources betr delta_tool doorvervain) tests/unproved tests/parts.py | toolchain
	@packaging/part 'programs and C library' 'build without proofs, two to three minutes' tests/unproved --parts $(OUT)

# The library whose accesses of memory a sanitizer of threads sees (examples/run).
races: $(OUT)/races.a
$(OUT)/races.a: $(shell packaging/sources doorvervain) tests/unproved tests/parts.py | toolchain
	@packaging/part 'C library for a sanitizer of threads' 'builds without proofs, one to three minutes' tests/unproved doorvervain $@ --races
else
crates/betr/out/betr crates/delta_tool/out/delta_tool: | toolchain
	@echo '$@ is not there: make prove proves and builds it, an hour at first; make UNPROVED=1 builds all without proofs' >&2
	@exit 1

# Behind the programs, so that an hour of proofs does not begin where one of them is missing: make libraries asks for the archive alone.
crates/doorvervain/out/libdoorvervain.a: | toolchain $(if $(filter libraries,$(MAKECMDGOALS)),,$(BETR) $(if $(NO_DELTAS),,$(DELTAS)))
	examples/archive
endif

# Without the toolchain nothing is built, and this says so before anything else.
toolchain:
	@mkdir -p $(OUT)
	@tests/toolchain make > /dev/null

$(HEAP): | toolchain
	@echo '$@ is not there' >&2; exit 1

# ---- the C library

# The line that doorvervain_build() returns. It is written anew for each commit.
$(OUT)/build.h: $(ARCHIVE) always
	@mkdir -p $(@D)
	@printf '#define DOORVERVAIN_BUILD "%s"\n' "$$(packaging/stamp --line $(ARCHIVE))" > $@.new
	@if cmp -s $@.new $@; then rm $@.new; else mv $@.new $@; fi

$(OUT)/build.o: packaging/build.c $(OUT)/build.h include/doorvervain.h
	@$(CC) -O2 -fPIC -Wall -Wextra -Werror $(CFLAGS) -include $(OUT)/build.h -c $< -o $@

# The archive with the object that asks malloc for memory: one file to link.
$(OUT)/lib/libdoorvervain.a: $(ARCHIVE) $(HEAP) $(OUT)/build.o
	@mkdir -p $(@D)
	@rm -f $@
	@printf 'create %s\naddlib %s\naddlib %s\naddmod %s\nsave\nend\n' $@ $(ARCHIVE) $(HEAP) $(OUT)/build.o | $(AR) -M
	@echo 'C library: $@'

# Its two other names are links, and are made where it is installed: the gate takes no link below this folder.
$(OUT)/lib/$(SHARED): $(ARCHIVE) $(HEAP) $(OUT)/build.o packaging/exports.map
	@mkdir -p $(@D)
	@$(CC) -shared $(LDFLAGS) -Wl,-soname,$(SONAME) -Wl,--version-script=packaging/exports.map -Wl,-z,defs \
	    -Wl,--gc-sections -Wl,--whole-archive $(ARCHIVE) -Wl,--no-whole-archive $(OUT)/build.o $(HEAP) -o $@
	@echo 'C library: $@'

$(OUT)/include/doorvervain.h: include/doorvervain.h
	@mkdir -p $(@D)
	@cp $< $@

# ---- what stands on it

# One module for all versions of Python from 3.9 on.
$(OUT)/python/_core.abi3.so: $(OUT)/lib/libdoorvervain.a $(OUT)/include/doorvervain.h bindings/python/backend.py $(wildcard bindings/python/core/*)
	@mkdir -p $(@D)
	@DOORVERVAIN_DIR='$(CURDIR)/$(OUT)' packaging/part 'module for Python' compiles $(PYTHON) -B bindings/python/backend.py $@

# The crate is installed as sources; this shows that they compile over the library.
$(OUT)/rust.built: $(OUT)/lib/libdoorvervain.a $(wildcard bindings/rust/src/*) bindings/rust/build.rs bindings/rust/README.md bindings/rust/Cargo.toml
	@DOORVERVAIN_DIR='$(CURDIR)/$(OUT)' CARGO_TARGET_DIR='$(CURDIR)/$(OUT)/rust' packaging/part 'crate for Rust' compiles \
	    $(CARGO) build --release --offline --quiet --manifest-path bindings/rust/Cargo.toml
	@touch $@

# Its files in C are compiled beside what takes minutes.
mount: $(ARCHIVE) mount-objects
	+@packaging/part mount links $(MAKE) -C mount $(TO_MOUNT)

mount-objects: | toolchain $(if $(filter out/unproved,$(OUT)),,$(ARCHIVE))
	+@packaging/part 'mount in C' compiles $(MAKE) -C mount $(TO_MOUNT) objects

TO_MOUNT = OUT='$(OUT)' LIBRARY='$(abspath $(ARCHIVE))' PREFIX='$(PREFIX)' DESTDIR='$(DESTDIR)'

# ---- pages of the manual

$(OUT)/man/betr.1: $(BETR) packaging/manual
	@mkdir -p $(@D)
	@$(BETR) --help > $(OUT)/man/betr.help
	@packaging/manual betr $(OUT)/man/betr.help $(RELEASE) > $@

$(OUT)/man/doorvervain.3: include/doorvervain.h packaging/manual
	@mkdir -p $(@D)
	@packaging/manual header $< > $@
	@rm -rf $(OUT)/man/man3 && mkdir $(OUT)/man/man3
	@packaging/manual pages $< $(OUT)/man/man3

# ---- installing

install: all
	@install -d $(TO)/bin $(TO)/lib/pkgconfig $(TO)/include $(TO)/share/man/man1 $(TO)/share/man/man3
	@install -d $(TO)/share/bash-completion/completions $(TO)/share/doc/doorvervain $(SHARE)/bindings $(SHARE)/examples
	@install -m 755 $(BETR) $(TO)/bin/betr
	@$(if $(NO_DELTAS),,install -m 755 $(DELTAS) $(TO)/bin/deltas)
	@install -m 644 $(OUT)/lib/libdoorvervain.a $(TO)/lib/libdoorvervain.a
	@install -m 755 $(OUT)/lib/$(SHARED) $(TO)/lib/$(SHARED)
	@ln -sf $(SHARED) $(TO)/lib/$(SONAME)
	@ln -sf $(SONAME) $(TO)/lib/libdoorvervain.so
	@install -m 644 include/doorvervain.h $(TO)/include/doorvervain.h
	@sed -e 's|@PREFIX@|$(PC_PREFIX)|' -e 's|@VERSION@|$(RELEASE)|' -e "s|@BUILD@|$$(packaging/stamp --line $(ARCHIVE))|" \
	    packaging/doorvervain.pc.in > $(TO)/lib/pkgconfig/doorvervain.pc
	@install -m 644 $(OUT)/man/betr.1 $(TO)/share/man/man1/betr.1
	@install -m 644 $(OUT)/man/doorvervain.3 $(TO)/share/man/man3/doorvervain.3
	@install -m 644 $(OUT)/man/man3/*.3 $(TO)/share/man/man3
	@install -m 644 packaging/betr.bash $(TO)/share/bash-completion/completions/betr
	@install -m 644 $(DOCUMENTS) $(TO)/share/doc/doorvervain
	@tar -C bindings $(LEFT_OUT) -cf - install python rust | tar -C $(SHARE)/bindings --no-same-owner -xf -
	@$(if $(MODULE),install -m 755 $(MODULE) $(SHARE)/bindings/python/_core.abi3.so)
	@tar -C examples $(LEFT_OUT) -cf - c cpp rust fixture build_cache parallel_tests sandbox | tar -C $(SHARE)/examples --no-same-owner -xf -
	@$(STAMP) $(ARCHIVE) > $(SHARE)/COMMIT
	+@$(if $(NO_MOUNT),,$(MAKE) -s -C mount install $(TO_MOUNT))
	@echo 'installed: $(TO)'

uninstall:
	rm -f $(TO)/bin/betr $(TO)/bin/deltas $(TO)/lib/libdoorvervain.a $(TO)/lib/$(SHARED) $(TO)/lib/$(SONAME) $(TO)/lib/libdoorvervain.so
	rm -f $(TO)/include/doorvervain.h $(TO)/lib/pkgconfig/doorvervain.pc $(TO)/share/bash-completion/completions/betr
	rm -f $(TO)/share/man/man1/betr.1 $(TO)/share/man/man3/doorvervain.3
	packaging/manual names include/doorvervain.h | while read -r name; do rm -f "$(TO)/share/man/man3/$$name.3"; done
	rm -rf $(SHARE) $(TO)/share/doc/doorvervain
	$(MAKE) -C mount uninstall PREFIX='$(PREFIX)' DESTDIR='$(DESTDIR)'

# ---- the package

PACKAGE := doorvervain-$(RELEASE)-linux-$(shell uname -m)$(if $(filter out/unproved,$(OUT)),-unproved)
UNPACKED := out/dist/$(PACKAGE)
MISSING := $(if $(filter deltas,$(WITHOUT)),,$(if $(NO_DELTAS),program deltas: $(NO_DELTAS).)) \
    $(if $(filter python,$(WITHOUT)),,$(if $(NO_PYTHON),module for Python: $(NO_PYTHON).)) \
    $(if $(filter mount,$(WITHOUT)),,$(if $(NO_MOUNT),mount: $(NO_MOUNT).))

# The parts that cannot be built here, for WITHOUT.
missing:
	@echo $(if $(NO_DELTAS),deltas) $(if $(NO_PYTHON),python) $(if $(NO_MOUNT),mount)

# A .pc file that finds its folder by itself, so that the package works wherever it is unpacked.
dist:
	@[ -z '$(strip $(MISSING))' ] || { echo 'make dist: a part is missing: $(strip $(MISSING)) make needs installs it; WITHOUT= leaves it out' >&2; exit 1; }
	rm -rf $(UNPACKED)
	$(MAKE) install DESTDIR= LINK= PREFIX='$(CURDIR)/$(UNPACKED)' PC_PREFIX='$$$${pcfiledir}/../..'
	install -m 644 packaging/PACKAGE.md $(UNPACKED)/README.md
	mv $(UNPACKED)/share/doorvervain/COMMIT $(UNPACKED)/COMMIT
	cd $(UNPACKED) && find . -type f ! -name SHA256SUMS | LC_ALL=C sort | xargs sha256sum > SHA256SUMS
	tar -C out/dist --sort=name --owner=0 --group=0 --numeric-owner --mtime="@$$(git log -1 --format=%ct)" \
	    -cf - $(PACKAGE) | gzip -n > $(UNPACKED).tar.gz
	rm -rf $(UNPACKED)
	@echo $(UNPACKED).tar.gz

# ---- the rest

test:
	tests/quick

prove:
	bash .ci/run

needs:
	tools/apt-deps packaging python rust mount

clean:
	rm -rf out
	$(MAKE) -C mount clean

help:
	@sed -n '2,/^[^#]/{s/^# \{0,1\}//p}' Makefile

# A page that could not be made is none.
.DELETE_ON_ERROR:
.PHONY: all libraries races mount mount-objects install uninstall missing dist test prove needs clean help toolchain always
