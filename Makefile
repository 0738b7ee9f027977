# `make` proves and builds the library and the tool, and shelves the sample plans; `make help` lists the targets. The library
# needs `rt` of the Rattle kit on the PATH, the tool cargo, the tests cc and python3 too. With JURNADEL_LIB_DIR a folder that has
# libjurnadel.a, that library is taken in place of crates/jurnadel/out, and `rt` is not needed but for `make test`.
VERSION := 0.9.2

# Where things are installed: full paths, behind DESTDIR.
PREFIX ?= /usr/local
BINDIR ?= $(PREFIX)/bin
LIBDIR ?= $(PREFIX)/lib
INCLUDEDIR ?= $(PREFIX)/include
MANDIR ?= $(PREFIX)/share/man
DOCDIR ?= $(PREFIX)/share/doc/jurnadel
DESTDIR ?=
FOLDERS := BINDIR LIBDIR INCLUDEDIR MANDIR DOCDIR

PROVED := $(CURDIR)/crates/jurnadel/out
export JURNADEL_LIB_DIR ?= $(PROVED)
override JURNADEL_LIB_DIR := $(abspath $(JURNADEL_LIB_DIR))
LIBRARY := $(JURNADEL_LIB_DIR)/libjurnadel.a
CARGO_FLAGS := --release --offline --quiet --manifest-path rust/Cargo.toml --target-dir build/rust
TOOL := build/rust/release/jurnadel
MAN_PAGE := build/jurnadel.1
SHELF := build/samples.shelf

# Documents and definitions that are installed; the documents name the definitions by the folder they are installed in.
DOCUMENTS := FORMAT.md PROOF.md TRACE.md
SPECS := crates/model/specs
# A folder as the pkg-config file has it: below ${prefix} where it is, so that the prefix can be given anew.
below_prefix = $(patsubst $(PREFIX)/%,$${prefix}/%,$(1))
full_paths = $(foreach folder,$(FOLDERS),$(if $(filter /%,$($(folder))),,$(error $(folder)=$($(folder)) is not a full path)))

.PHONY: all library tool man lines bench second_coder vectors rust-tests test install install-lib uninstall clean help

all: tool ## proves and builds library and tool, and shelves the sample plans (the default)
	@rm -f $(SHELF)
	$(TOOL) shelve $(SHELF) examples/*.plan
	$(TOOL) verify $(SHELF)

# For any x86-64 processor: Rattle's default has some instructions more.
$(PROVED)/libjurnadel.a: crates.txt $(shell find crates -name out -prune -o -type f -print)
	cd crates/jurnadel && rt lib --cpu x86-64
	@touch $@

library: $(LIBRARY) ## proves and builds the library

tool: $(LIBRARY) ## builds the tool, build/rust/release/jurnadel
	cargo build $(CARGO_FLAGS) -p jurnadel-tool

man: tool ## makes the man page, build/jurnadel.1, with the help of each command
	man/commands $(TOOL) | sed -e 's/@VERSION@/$(VERSION)/' -e '/@COMMANDS@/{r /dev/stdin' -e 'd}' man/jurnadel.1.in > $(MAN_PAGE)

lines: $(LIBRARY) ## builds the library's side of the line protocol, for tests/compare
	cargo build $(CARGO_FLAGS) -p proved_coder

bench: $(LIBRARY) ## times the library beside the second coder and a peer in C
	bench/run

second_coder: ## builds the second coder
	cd tests/second_coder && cargo build --release --offline --quiet

# The lines that Vectors.antt proves are those that the second coder answers; so are those that `cases` and `shelves` write.
vectors: second_coder ## holds the proved vectors to the second coder's answers
	tests/vectors

rust-tests: $(LIBRARY) ## the tests of the Rust crates
	cargo test $(CARGO_FLAGS) --workspace

test: vectors rust-tests ## the gate: all tests, then every proof from nothing
	tests/package
	tests/compare
	tests/tool/run
	tests/scale
	tests/proofs

install: tool man install-lib ## installs the tool, its man page and all of install-lib
	install -d "$(DESTDIR)$(BINDIR)" "$(DESTDIR)$(MANDIR)/man1"
	install -m 755 $(TOOL) "$(DESTDIR)$(BINDIR)/jurnadel"
	install -m 644 $(MAN_PAGE) "$(DESTDIR)$(MANDIR)/man1/jurnadel.1"

install-lib: $(LIBRARY) ## installs library, header, pkg-config file and documents; needs no cargo
	@$(full_paths)
	install -d "$(DESTDIR)$(LIBDIR)/pkgconfig" "$(DESTDIR)$(INCLUDEDIR)" "$(DESTDIR)$(DOCDIR)/definitions"
	install -m 644 $(LIBRARY) "$(DESTDIR)$(LIBDIR)/libjurnadel.a"
	install -m 644 include/jurnadel.h "$(DESTDIR)$(INCLUDEDIR)/jurnadel.h"
	sed -e 's|@PREFIX@|$(PREFIX)|; s|@VERSION@|$(VERSION)|' -e 's|@LIBDIR@|$(call below_prefix,$(LIBDIR))|' \
		-e 's|@INCLUDEDIR@|$(call below_prefix,$(INCLUDEDIR))|' include/jurnadel.pc.in | \
		install -m 644 /dev/stdin "$(DESTDIR)$(LIBDIR)/pkgconfig/jurnadel.pc"
	for document in $(DOCUMENTS); do \
		sed 's|$(SPECS)|definitions|g' docs/$$document | install -m 644 /dev/stdin "$(DESTDIR)$(DOCDIR)/$$document" || exit 1; \
	done
	install -m 644 $(SPECS)/*.antt "$(DESTDIR)$(DOCDIR)/definitions"

uninstall: ## removes what install put there; takes the same folders
	@$(full_paths)
	rm -f "$(DESTDIR)$(BINDIR)/jurnadel" "$(DESTDIR)$(MANDIR)/man1/jurnadel.1" "$(DESTDIR)$(LIBDIR)/libjurnadel.a" \
		"$(DESTDIR)$(LIBDIR)/pkgconfig/jurnadel.pc" "$(DESTDIR)$(INCLUDEDIR)/jurnadel.h"
	rm -f $(patsubst %,"$(DESTDIR)$(DOCDIR)/%",$(DOCUMENTS) $(patsubst $(SPECS)/%,definitions/%,$(wildcard $(SPECS)/*.antt)))
	rmdir "$(DESTDIR)$(DOCDIR)/definitions" "$(DESTDIR)$(DOCDIR)" 2> /dev/null || true

clean: ## removes all that is built, the proved library too: build/, crates/*/out/, tests/second_coder/target/
	rm -rf build crates/*/out tests/second_coder/target

help: ## lists the targets and the folders
	@echo 'make [TARGET] [FOLDER=PATH ..]'
	@echo
	@sed -n 's/^\([a-z_-]*\):.*## \(.*\)/\1: \2/p' $(MAKEFILE_LIST) | while IFS=: read -r name does; do printf '  %-14s%s\n' "$$name" "$$does"; done
	@echo
	@$(foreach folder,PREFIX $(FOLDERS) DESTDIR JURNADEL_LIB_DIR,printf '  %-17s%s\n' '$(folder)' '$($(folder))';)
