# Installs petool and libpetool, and builds what is missing by `rt`.
#
#   make [-j4] petool                      builds the program; with -j, several crates are proved at a time
#   make [-j4]                             builds the program and the library
#   make [-j4] page                        builds the page and the package for JavaScript in $(O)/page and $(O)/js
#   make install [PREFIX=..] [DESTDIR=..]  installs the program, the library, man pages, completions and the pages for users, and if
#                                          there is a wasm-opt also the page for browsers
#   make uninstall [PREFIX=..] ..          removes what was installed
#
# LIBDIR and ZSHDIR name other folders for the library and for zsh's completion. Results of `rt ci` are used if they are newer than
# the sources. PROGRAM and CALLS may name a program and an archive of the calls that exist already, and WEBPAGE a page; with PROGRAM,
# WEBPAGE and LIBRARY, which names a libpetool.a, `rt` is not needed. Give whole paths.
#
# What `rt` builds is in crates/*/out, and scripts/prove.py keeps it for other checkouts; all else is made in $(O), outside the
# repository.

O ?= $(or $(TMPDIR),/tmp)/petool-build
override O := $(abspath $(O))
PREFIX ?= /usr/local
LIBDIR ?= $(PREFIX)/lib
ZSHDIR ?= $(PREFIX)/share/zsh/site-functions
DESTDIR ?=
AT := $(DESTDIR)$(PREFIX)
BIN := $(AT)/bin
LIB := $(DESTDIR)$(LIBDIR)
ZSH := $(DESTDIR)$(ZSHDIR)
INCLUDE := $(AT)/include
SHARE := $(AT)/share

PROGRAM := crates/petool/out/petool
# the page that is installed, if there is one; what makes the form of its module for 32-bit addresses may be missing
PAGE := $(O)/page/petool.html
WASM_OPT := $(shell command -v wasm-opt 2>/dev/null)
WEBPAGE := $(if $(WASM_OPT),$(PAGE))
# said before anything is proved, and again at the end; not if it was asked for
LEFT_OUT := $(if $(WEBPAGE),,$(if $(filter file,$(origin WEBPAGE)),the page for browsers is left out: it needs wasm-opt of binaryen))
# folders too, since their times change if a source is removed
SOURCES := crates.txt $(shell find crates/*/src crates/*/specs crates/*/proofs)
SHELLS := bash zsh fish
# the pages that are installed, in the same folders as here, so that their links work; a link to a page that is not installed
# becomes plain words
PAGES := README.md $(patsubst %,docs/%.md,C FAULTS FORMAT GUIDE JSON LIBRARIES PROVED)
PICTURES := docs/page.png
NOT_INSTALLED := (\.\./)?((docs/)?(CHANGES|DECISIONS|MAP|PERF|TESTS)\.md|(bindings|crates|describe)/)

.DELETE_ON_ERROR:
.PHONY: all petool page install uninstall anew
all: $(PROGRAM) $(SHELLS:%=$(O)/completions.%)
	$(MAKE) -C bindings/c O=$(O)/c PREFIX=$(PREFIX) LIBDIR=$(LIBDIR) library

petool: $(PROGRAM)

# how many crates are proved at a time: as many as `-j` says
JOBS = $(or $(patsubst -j%,%,$(filter -j%,$(MAKEFLAGS))),$(if $(filter -j,$(MAKEFLAGS)),$(shell nproc),1))
# the calls of the library and of the page too, unless only the program is made
WANTED := petool $(if $(filter petool,$(MAKECMDGOALS)),,petool_c $(if $(filter $(PAGE),$(WEBPAGE)),petool_page))

# it is touched, since sources that were only copied or checked out again are newer than the program that was proved from them
crates/petool/out/petool: $(SOURCES)
	scripts/prove.py --jobs $(JOBS) $(WANTED)
	touch $@

# The page and the package: `rt ci` takes no crate of the kind wasm64, so the module is proved and built in a copy of the sources where
# the line of petool_page says this in place of staticlib. The copy has the libraries below it, as hard links if it can, and what a
# proof of petool_page for x86-64 left to begin with: most goals are the same. Debian's binaryen makes of the module the form for a
# memory of 32-bit addresses.
COPY := $(O)/module
BEGUN := crates/petool_page/out/incremental
PAGE_SOURCES := $(wildcard page/*.html page/*.css page/build.py page/src/*.mjs) bindings/js/faults.py describe/faults.txt
PACKAGE := $(wildcard bindings/js/*.mjs) $(addprefix bindings/js/,petool.d.ts package.json README.md)
FEATURES := memory64 bulk-memory multivalue mutable-globals nontrapping-float-to-int sign-ext

page: $(PAGE) $(O)/js/package.json

$(O)/js/petool64.wasm: $(SOURCES) scripts/prove.py
	@$(if $(WASM_OPT),,echo 'the page needs wasm-opt of binaryen' >&2; exit 1)
	rm -rf $(COPY)
	mkdir -p $(COPY) $(O)/js
	tar -c --exclude=out HANDLES crates scripts | tar -x -C $(COPY)
	for it in crates/*/out/rlib; do \
	    case $$it in *\** | crates/petool_page/*) continue ;; esac; \
	    mkdir -p $(COPY)/$${it%/rlib} || exit; \
	    cp -al $$it $(COPY)/$$it 2>/dev/null || { rm -rf $(COPY)/$$it && cp -a --reflink=auto $$it $(COPY)/$$it; } || exit; \
	done
	if [ -d $(BEGUN) ]; then mkdir -p $(COPY)/crates/petool_page/out && cp -a --reflink=auto $(BEGUN) $(COPY)/$(BEGUN); fi
	sed 's/^petool_page staticlib:/petool_page wasm64:/' crates.txt > $(COPY)/crates.txt
	$(COPY)/scripts/prove.py --jobs $(JOBS) petool_page
	cp $(COPY)/crates/petool_page/out/petool_page.wasm $@

$(O)/js/petool32.wasm: $(O)/js/petool64.wasm
	wasm-opt $(FEATURES:%=--enable-%) --memory64-lowering $< -o $@

$(O)/js/faults.json: bindings/js/faults.py describe/faults.py describe/faults.txt
	mkdir -p $(O)/js
	bindings/js/faults.py > $@

$(O)/js/package.json: $(PACKAGE) $(O)/js/petool64.wasm $(O)/js/petool32.wasm $(O)/js/faults.json
	cp $(PACKAGE) $(O)/js
	bindings/js/faults.py --into $(O)/js/fault.mjs
	touch $@

$(PAGE): $(PAGE_SOURCES) $(PACKAGE) $(O)/js/petool32.wasm $(O)/js/faults.json
	mkdir -p $(O)/page
	page/build.py $(O)/js/petool32.wasm $(O)/js/faults.json $@

# made each time, since another checkout may have made the old ones
$(O)/completions.%: anew
	mkdir -p $(O)
	python3 scripts/completions.py $* > $@

ifneq ($(and $(filter install,$(MAKECMDGOALS)),$(LEFT_OUT)),)
$(info $(LEFT_OUT))
endif

install: all $(WEBPAGE)
	install -d $(BIN) $(LIB)/pkgconfig $(INCLUDE) $(SHARE)/man/man1 $(SHARE)/man/man3 $(SHARE)/doc/petool/docs \
	    $(SHARE)/bash-completion/completions $(ZSH) $(SHARE)/fish/vendor_completions.d
	install -m 755 $(PROGRAM) $(BIN)/petool
	install -m 644 bindings/c/petool.h $(INCLUDE)/petool.h
	install -m 644 $(O)/c/libpetool.a $(O)/c/libpetool.so.2 $(LIB)
	ln -sf libpetool.so.2 $(LIB)/libpetool.so
	install -m 644 $(O)/c/petool.pc $(LIB)/pkgconfig/petool.pc
	install -m 644 man/petool.1 $(SHARE)/man/man1/petool.1
	install -m 644 man/petool.h.3 $(SHARE)/man/man3/petool.h.3
	install -m 644 README.md $(SHARE)/doc/petool
	install -m 644 $(filter docs/%,$(PAGES)) $(PICTURES) $(SHARE)/doc/petool/docs
	sed -E -i 's,\[([^]]*)\]\($(NOT_INSTALLED)[^)]*\),\1,g' $(PAGES:%=$(SHARE)/doc/petool/%)
	install -m 644 $(O)/completions.bash $(SHARE)/bash-completion/completions/petool
	install -m 644 $(O)/completions.zsh $(ZSH)/_petool
	install -m 644 $(O)/completions.fish $(SHARE)/fish/vendor_completions.d/petool.fish
	$(if $(WEBPAGE),install -D -m 644 $(WEBPAGE) $(SHARE)/petool/petool.html)
	@$(if $(LEFT_OUT),echo '$(LEFT_OUT)')

# the installed files, but not the folders, which others may use too
uninstall:
	rm -f $(BIN)/petool $(INCLUDE)/petool.h $(LIB)/libpetool.a $(LIB)/libpetool.so.2 $(LIB)/libpetool.so \
	    $(LIB)/pkgconfig/petool.pc $(SHARE)/man/man1/petool.1 $(SHARE)/man/man3/petool.h.3 \
	    $(SHARE)/bash-completion/completions/petool $(ZSH)/_petool $(SHARE)/fish/vendor_completions.d/petool.fish
	rm -rf $(SHARE)/doc/petool $(SHARE)/petool
