# make          proves and builds the program, and leaves it at build/ostree_cli
# make check    the gate: every proof, edit, test and stored run
# make demo     builds if need be, and runs the program in a fresh folder
# make native   proves and builds the program on the machine's own files, and leaves it at build/ostree_native
# make install  copies the program, its man page and its completions below $(PREFIX), and those of ostree_native where that is built
PREFIX ?= /usr/local
MAN_PAGES = $(PREFIX)/share/man/man1
BASH_COMPLETIONS = $(PREFIX)/share/bash-completion/completions
ZSH_COMPLETIONS = $(PREFIX)/share/zsh/site-functions
PROGRAM = build/ostree_cli
NATIVE = build/ostree_native
SOURCES = crates.txt HANDLES $(shell find crates -path '*/out' -prune -o -type f -print)

$(PROGRAM): $(SOURCES)
	tools/build.py

$(NATIVE): $(SOURCES)
	tools/build.py ostree_native

native: $(NATIVE)

check:
	@echo "Proves every crate and every test, tries each edit and runs each program, all from nothing: some 90 minutes on four processors, almost three hours on two (docs/gate.md)."
	@echo "It tells a crate as soon as it is proved, and its last line is how many passed and failed."
	rt ci
	python3 tools/crates_table.py --check
	python3 tools/pages_check.py

demo: $(PROGRAM)
	sh tools/demo.sh

install: $(PROGRAM)
	mkdir -p "$(PREFIX)/bin" "$(MAN_PAGES)" "$(BASH_COMPLETIONS)" "$(ZSH_COMPLETIONS)"
	cp $(PROGRAM) "$(PREFIX)/bin/ostree_cli"
	cp man/ostree_cli.1 "$(MAN_PAGES)/ostree_cli.1"
	cp completion/ostree_cli.bash "$(BASH_COMPLETIONS)/ostree_cli"
	cp completion/_ostree_cli "$(ZSH_COMPLETIONS)/_ostree_cli"
	if [ -e $(NATIVE) ]; then \
		cp $(NATIVE) "$(PREFIX)/bin/ostree_native" && \
		cp man/ostree_native.1 "$(MAN_PAGES)/ostree_native.1" && \
		cp completion/ostree_cli.bash "$(BASH_COMPLETIONS)/ostree_native"; \
	fi

clean:
	rm -rf build crates/*/out

.PHONY: check demo install native clean
