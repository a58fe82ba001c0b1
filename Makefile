# Needs the Rattle kit (rt), a C compiler and Python 3. `make help` lists the targets.
PREFIX ?= /usr/local
DESTDIR ?=
CC ?= cc
AR ?= ar
CFLAGS ?= -O2
INSTALL ?= install

version := $(shell cat VERSION)
major := $(firstword $(subst ., ,$(version)))
lib = target/lib/libfactor_curves
exported = desk_c desk_two_c export_check export_read export_pair export_sheet export_open export_write export_fill_slopes \
  export_import
objects = target/lib/objects
# Code for every x86-64 processor; without this rt's is for x86-64-v2.
cpu = --cpu x86-64
program = target/bin/ratesheet
pages = ratesheet factor-curves
to = $(DESTDIR)$(PREFIX)

# All that a proof may depend on. What rt makes stands in folders out/.
proved := crates.txt $(shell find crates -name out -prune -o -name '*.rt' -print -o -name '*.antt' -print)

# $(call prove,COMMAND): what it prints is shown if it fails.
define prove
$(call need,rt,it comes with the Rattle kit)
@echo "make: proving what $@ is made of; from nothing this takes some ten minutes" >&2
@mkdir -p target; { $(1); } >target/make.log 2>&1 || { cat target/make.log >&2; exit 1; }
endef

# $(call need,TOOL,WHERE IT COMES FROM)
need = @command -v $(1) >/dev/null || { echo "make: $(1) is not on the path: $(2)" >&2; exit 1; }
need-cc = $(call need,$(firstword $(CC)),a C compiler is needed; CC names one)
need-python3 = $(call need,python3,factor-curves and the outside tests and the benchmark are written in Python 3)

.NOTPARALLEL:
.DELETE_ON_ERROR:
.PHONY: all lib program quote run samples test bench install uninstall version clean help

all: lib program ## the library and the program; what `make` alone does

lib: $(lib).a $(lib).so ## target/lib/libfactor_curves.a and .so, for C and Python
	@echo $(lib).a $(lib).so

$(lib).a: $(proved) c/refusal_words.c include/factor_curves.h
	$(call need-cc)
	$(call prove,for name in $(exported); do (cd crates/$$name && rt lib $(cpu)) || exit 1; done)
	@rm -rf $(objects) $@ && mkdir -p $(objects)
	@cd $(objects) && for name in $(exported); do $(AR) x ../../../crates/$$name/out/lib$$name.a || exit 1; done
	@$(CC) $(CFLAGS) -fPIC -Iinclude -c c/refusal_words.c -o $(objects)/refusal_words.o
	@$(AR) rcs $@ $(objects)/*.o

$(lib).so: $(lib).a
	@$(CC) $(CFLAGS) -shared -Wl,-soname,libfactor_curves.so.$(major) -Wl,-z,noexecstack -o $@ \
	  -Wl,--whole-archive $(lib).a -Wl,--no-whole-archive
	@cp $@ $@.$(major)

program: $(program) ## target/bin/ratesheet, the sheet of a curve file (man/ratesheet.1)
	@echo $(program)

# rt links a program only to run it.
$(program): $(proved)
	$(call prove,cd crates/ratesheet && rt run $(cpu) -- --version)
	@mkdir -p $(dir $@) && cp crates/ratesheet/out/ratesheet $@

quote: lib ## target/quote, the sample quoting desk: target/quote samples/document-01.trf 550
	$(call need-cc)
	@$(CC) $(CFLAGS) -Iinclude samples/quote.c $(lib).a -o target/quote
	@echo target/quote

run: $(program) ## print the sheet of samples/document-01.trf
	@$(program) <samples/document-01.trf

# Texts of curves that are refused, or with a mistake, have no file.
texts = $(filter-out samples/refused-% samples/mistake-%,$(wildcard samples/*.txt))
INTO ?= samples

samples: lib ## INTO/NAME.trf from each samples/NAME.txt of an accepted curve; INTO is samples
	$(call need-python3)
	@for text in $(texts); do PYTHONPATH=python python3 -m factor_curves make $$text \
	  -o $(INTO)/$$(basename $$text .txt).trf || exit 1; done
	@echo $(texts:samples/%.txt=$(INTO)/%.trf)

test: ## the whole gate: outside tests, proofs, must-fail edits, programs (.ci/run)
	$(call need,rt,it comes with the Rattle kit)
	$(call need-cc)
	$(call need-python3)
	.ci/run

bench: lib ## times against a plain C version (docs/BENCHMARKS.md)
	$(call need-python3)
	bench/run

install: all ## library, headers, pkg-config file, program and man pages, below PREFIX (/usr/local)
	$(INSTALL) -d $(to)/include $(to)/lib/pkgconfig $(to)/bin $(to)/share/man/man1
	$(INSTALL) -m 644 include/factor_curves.h include/desk.h $(to)/include
	$(INSTALL) -m 644 $(lib).a $(to)/lib
	$(INSTALL) -m 755 $(lib).so $(to)/lib/libfactor_curves.so.$(version)
	ln -sf libfactor_curves.so.$(version) $(to)/lib/libfactor_curves.so.$(major)
	ln -sf libfactor_curves.so.$(version) $(to)/lib/libfactor_curves.so
	sed 's|@PREFIX@|$(PREFIX)|; s|@VERSION@|$(version)|' c/factor_curves.pc.in >target/factor_curves.pc
	$(INSTALL) -m 644 target/factor_curves.pc $(to)/lib/pkgconfig
	$(INSTALL) -m 755 $(program) $(to)/bin
	$(INSTALL) -m 644 $(pages:%=man/%.1) $(to)/share/man/man1

uninstall: ## remove what `make install` of this version with the same PREFIX and DESTDIR installed
	rm -f $(to)/include/factor_curves.h $(to)/include/desk.h $(to)/bin/ratesheet $(to)/lib/pkgconfig/factor_curves.pc
	rm -f $(to)/lib/libfactor_curves.a $(to)/lib/libfactor_curves.so $(to)/lib/libfactor_curves.so.$(major)
	rm -f $(to)/lib/libfactor_curves.so.$(version) $(pages:%=$(to)/share/man/man1/%.1)

version: ## write the number in VERSION into the header, the Python package and the program
	sed -i 's|\(#define FACTOR_CURVES_VERSION "\)[^"]*|\1$(version)|' include/factor_curves.h
	sed -i 's|^\(__version__ = "\)[^"]*|\1$(version)|' python/factor_curves/__init__.py
	sed -i 's|\(b"ratesheet \)[^\\]*|\1$(version)|' crates/ratesheet/src/main.rt

clean: ## remove target/ and the folders out/ of rt, with all that was built
	rm -rf target crates/*/out

help: ## this list
	@awk -F ':.*## ' '/^[a-z]+:.*## / { printf "make %-9s %s\n", $$1, $$2 }' Makefile
