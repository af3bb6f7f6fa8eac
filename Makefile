# make install PREFIX=/usr/local    puts the command, its man page, completions for bash and documents below PREFIX; needs no toolchain
# make test                         every test that needs no toolchain: tests/all
# make prove                        proves everything from nothing, builds, and compares with dist/; needs the toolchain, and hours
# make release                      writes dist/ from the program that was proved and built here
# make deb                          a Debian package of what `make install` installs, from dist/
# make lint                         looks for automata of examples/ that read as something else than they mean
# make definitions                  writes docs/DEFINITIONS.md, all definitions that contracts cite

PREFIX ?= /usr/local
DESTDIR ?=
LIBRARY = $(DESTDIR)$(PREFIX)/lib/rabit
DOCUMENTS = $(DESTDIR)$(PREFIX)/share/doc/rabit

.PHONY: help install uninstall test prove release deb lint definitions

help:
	@sed -n 's/^# //p' Makefile

install:
	install -d "$(LIBRARY)" "$(DOCUMENTS)" "$(DESTDIR)$(PREFIX)/bin" "$(DESTDIR)$(PREFIX)/share/man/man1" "$(DESTDIR)$(PREFIX)/share/bash-completion/completions"
	install -m 755 "$$(./rabit --program)" "$(LIBRARY)/rabit-x86_64-linux"
	install -m 755 rabit tools/check_cert.py tools/rabit-tool tools/ba-lint "$(LIBRARY)"
	install -d "$(LIBRARY)/rabit_tool"
	install -m 644 tools/rabit_tool/*.py "$(LIBRARY)/rabit_tool"
	install -m 644 tools/commands tools/rabit-help VERSION dist/PROVENANCE docs/rabit.1 "$(LIBRARY)"
	install -m 644 docs/FORMATS.md docs/TUTORIAL.md docs/WITH-OTHER-TOOLS.md LICENSE "$(DOCUMENTS)"
	ln -sf ../lib/rabit/rabit "$(DESTDIR)$(PREFIX)/bin/rabit"
	ln -sf ../lib/rabit/check_cert.py "$(DESTDIR)$(PREFIX)/bin/rabit-check-cert"
	ln -sf ../lib/rabit/ba-lint "$(DESTDIR)$(PREFIX)/bin/rabit-lint"
	ln -sf ../lib/rabit/rabit-tool "$(DESTDIR)$(PREFIX)/bin/rabit-tool"
	install -m 644 docs/rabit.1 docs/rabit-tool.1 "$(DESTDIR)$(PREFIX)/share/man/man1"
	install -m 644 tools/rabit-completion.bash "$(DESTDIR)$(PREFIX)/share/bash-completion/completions/rabit"
	install -m 644 tools/rabit-tool-completion.bash "$(DESTDIR)$(PREFIX)/share/bash-completion/completions/rabit-tool"

uninstall:
	rm -rf "$(LIBRARY)" "$(DOCUMENTS)"
	rm -f "$(DESTDIR)$(PREFIX)/bin/rabit" "$(DESTDIR)$(PREFIX)/bin/rabit-check-cert" "$(DESTDIR)$(PREFIX)/bin/rabit-lint" "$(DESTDIR)$(PREFIX)/bin/rabit-tool"
	rm -f "$(DESTDIR)$(PREFIX)/share/man/man1/rabit.1" "$(DESTDIR)$(PREFIX)/share/man/man1/rabit-tool.1"
	rm -f "$(DESTDIR)$(PREFIX)/share/bash-completion/completions/rabit" "$(DESTDIR)$(PREFIX)/share/bash-completion/completions/rabit-tool"

test:
	tests/all

prove:
	tools/prove

release:
	tools/release

deb:
	tools/make-deb

lint:
	tools/ba-lint examples/*.ba

definitions:
	docs/make-definitions
