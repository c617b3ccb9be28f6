# make dist                     one archive, overlay-run-VERSION.tar.gz: the program with its pages, examples, exercises and tools
# make install PREFIX=FOLDER    the same under FOLDER/share/overlay-run, and links to the program and the tools in FOLDER/bin
#
# Neither builds anything: both take bin/overlay-run as it stands. What the archive lacks are the sources and the proofs (crates/) and what
# goes with them; the tools read the forms of a script from tools/forms there.

VERSION := $(shell sed -n 's/^version: //p' CITATION.cff)
NAME := overlay-run-$(VERSION)
PREFIX ?= /usr/local
TOOLS := $(filter-out with-python forms tried,$(notdir $(wildcard tools/[a-z]*[a-z])))
TOOLS := $(foreach tool,$(TOOLS),$(if $(findstring .,$(tool)),,$(tool)))

# What stays out of the archive, and the files of crates/ that the tools read.
SOURCES := crates .ci bin/build bin/calls bin/calls.txt bin/pages bin/pages.words bin/statement bin/overlay-run.sources crates.txt HANDLES .gitignore
FORMS := sizes/src/lib.rt script_text/src/lib.rt script_text/specs/Forms.antt script_text/specs/Kinds.antt

.PHONY: dist install

dist:
	rm -rf out/$(NAME)
	mkdir -p out/$(NAME)
	git ls-files | grep -vxF $(SOURCES:%=-e %) | grep -v $(SOURCES:%=-e ^%/) | tar -cf - -T - | tar -xf - -C out/$(NAME)
	for file in $(FORMS); do mkdir -p out/$(NAME)/tools/forms/$$(dirname $$file) && cp crates/$$file out/$(NAME)/tools/forms/$$file || exit 1; done
	tar -czf $(NAME).tar.gz -C out $(NAME)
	rm -rf out/$(NAME)
	@echo $(NAME).tar.gz

install: dist
	mkdir -p $(DESTDIR)$(PREFIX)/share/overlay-run $(DESTDIR)$(PREFIX)/bin $(DESTDIR)$(PREFIX)/share/man/man1
	tar -xzf $(NAME).tar.gz -C $(DESTDIR)$(PREFIX)/share/overlay-run --strip-components=1
	ln -sfn ../share/overlay-run/bin/overlay-run $(DESTDIR)$(PREFIX)/bin/overlay-run
	for tool in $(TOOLS); do \
	    ln -sfn ../share/overlay-run/tools/$$tool $(DESTDIR)$(PREFIX)/bin/overlay-$$tool || exit 1; done
	ln -sfn ../../overlay-run/man/overlay-run.1 $(DESTDIR)$(PREFIX)/share/man/man1/overlay-run.1
