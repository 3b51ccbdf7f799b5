# make            proves every crate and builds the two programs, with one line a crate (JOBS=N: N at a time)
# make sample     draws the sample's page and says where it lies
# make check      the gate: rt ci
# make install    installs the programs, their scripts and the manual pages below PREFIX (with DESTDIR in front)
# make uninstall  removes what install put there
# make clean      removes what building left
PREFIX = /usr/local
DESTDIR =
JOBS =
BIN = $(DESTDIR)$(PREFIX)/bin
MAN = $(DESTDIR)$(PREFIX)/share/man/man1
# The scripts lie there as they lie here, so each finds the others; what users call is a line in BIN that calls one of them.
SHARE = $(DESTDIR)$(PREFIX)/share/dvipbm

PROGRAM = crates/dvipbm/out/dvipbm
SPOOL = crates/dvispool/out/dvispool
SOURCES = crates.txt $(shell find crates -name out -prune -o \( -name '*.rt' -o -name '*.antt' \) -print)

all: $(PROGRAM) $(SPOOL)

# One call builds both.
$(PROGRAM): $(SOURCES)
	tools/build $(JOBS)
	@touch $@

$(SPOOL): $(PROGRAM)
	@test -x $@ || tools/build $(JOBS)
	@touch $@

sample: $(PROGRAM)
	@mkdir -p out
	DVIPBM_FONTS=docs/sample $(PROGRAM) < docs/sample/sample.dvi > out/sample.pbm
	@echo "the page lies in out/sample.pbm"

check:
	rt ci

install:
	@for file in $(PROGRAM) $(SPOOL); do \
	  test -x $$file || { echo "install: there is no $$file: run make first" >&2; exit 1; }; \
	done
	mkdir -p "$(BIN)" "$(MAN)" "$(SHARE)/tools" "$(SHARE)/docs/recipes"
	install -m 755 $(PROGRAM) $(SPOOL) "$(BIN)"
	install -m 644 docs/man/*.1 "$(MAN)"
	install -m 644 VERSION "$(SHARE)"
	for file in tools/collect-fonts tools/*.py docs/recipes/*; do \
	  if [ -x "$$file" ]; then mode=755; elif [ -f "$$file" ]; then mode=644; else continue; fi; \
	  install -m $$mode "$$file" "$(SHARE)/$${file%/*}" || exit 1; \
	done
	sed 's|usage: docs/recipes/|usage: dvipbm-|' docs/recipes/tools.sh > "$(SHARE)/docs/recipes/tools.sh"
	case "$(PREFIX)" in /*) place="$(PREFIX)" ;; *) place="$$PWD/$(PREFIX)" ;; esac; \
	for file in tools/collect-fonts docs/recipes/*; do \
	  name=dvipbm-$${file##*/}; \
	  if [ -x "$$file" ] && [ "$$name" != dvipbm-cups-filter ]; then \
	    printf '#!/bin/sh\n# %s: see dvipbm-recipes(1).\nDVIPBM=$${DVIPBM:-"%s/bin/dvipbm"}\nDVISPOOL=$${DVISPOOL:-"%s/bin/dvispool"}\nexport DVIPBM DVISPOOL\nexec "%s/share/dvipbm/%s" "$$@"\n' \
	      "$$name" "$$place" "$$place" "$$place" "$$file" > "$(BIN)/$$name" && chmod 755 "$(BIN)/$$name" && \
	    echo '.so man1/dvipbm-recipes.1' > "$(MAN)/$$name.1" && chmod 644 "$(MAN)/$$name.1" || exit 1; \
	  fi; \
	done

uninstall:
	for file in "$(SHARE)"/tools/* "$(SHARE)"/docs/recipes/*; do \
	  rm -f "$(BIN)/dvipbm-$${file##*/}" "$(MAN)/dvipbm-$${file##*/}.1" || exit 1; \
	done
	rm -f "$(BIN)/dvipbm" "$(BIN)/dvispool" "$(MAN)/dvipbm.1" "$(MAN)/dvispool.1" "$(MAN)/dvipbm-recipes.1"
	rm -rf "$(SHARE)"

clean:
	rm -rf out crates/*/out

.PHONY: all sample check install uninstall clean
.DELETE_ON_ERROR:
