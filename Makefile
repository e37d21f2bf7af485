# `make help` prints these lines.
# Building and testing:
# - make             proves what has changed and builds bin/echonet (all)
# - make quick       compiles bin/quick/echonet in minutes, without proofs
# - make quick-test  tests that program
# - make test        the gate: proves everything, tries known mistakes, runs all tests of crates
# - make toolchain   whether the toolchain is there
# - make clean       removes what was built
# These compare the built program, or that of program=PATH, with what is expected:
# - make cases          what each command prints and leaves in the tables of examples/cases
# - make show-examples  what `show` prints of the packets in examples/packets
# - make story          three systems on real files
# - make net-test       the same by echonet-station
# - make station-test   the program echonet-station, and what it does with files; it needs Python 3.9
# - make manual-test    the manual page against the program's help
# - make follow         the sessions of docs/NODE.md, HUB.md, REFERENCE.md and REPAIR.md; it needs binkd
# - make small-nets     the verdicts on all small nets against the definitions
# - make tools-test     the programs of tools/; some of it needs graphviz and chromium
# - make interop        a net with another tosser, and the rules of docs/INTEROP.md; it needs binkd and crashmail
# - make trials         the program from outside (docs/TRIALS.md)
# - make demo           runs the first example
# Proofs and documents:
# - make edits        tries the edits of edits/, or of only=CRATE
# - make seconds      measures the proofs of crates; make times: the gate, into bin/times.md
# - make edit-table   writes the table of edits into docs/PROOFS.md; make crate-table: the diagram of docs/ARCHITECTURE.md
# - make pictures     draws the picture of README from a page of net-page; it needs graphviz and chromium
# Installing what was built, which needs no toolchain:
# - make install    copies program, manual pages, echonet-station, tools, documents and completions to PREFIX, below DESTDIR
# - make uninstall  removes them
# - make deb        makes a Debian package of the same files
# - make release    makes bin/release: the package, an archive, their sums and the commit
.PHONY: help all quick quick-test test edits edit-table crate-table times seconds pictures demo show-examples cases story net-test station-test manual-test small-nets tools-test follow interop trials install uninstall deb release toolchain clean
PREFIX = /usr/local

# The program that these targets run. After the gate, that is the one in crates/echonet/out.
program ?= bin/echonet

lower = $(shell sed -n 's/^$(1):\(.*\)/\1/p' crates.txt)
ours := $(shell sed -n 's/^\([a-z_]*\):.*/\1/p' crates.txt)

# Proves crates and the crates below them, as many at a time as memory allows. Crates with the longest chain of crates
# above them come first. make accepts the number of jobs only on a command line, so this calls make again. The called
# make finds out what has to be proved again. Arguments: crates, and other targets.
prove = +@mkdir -p bin && scripts/order.sh $(1) > bin/order && \
  $(MAKE) --no-print-directory --jobs=$$(scripts/jobs.sh) proving=1 $$(sed 's/^\([a-z_]*\).*/bin\/proved\/\1/' bin/order) $(2)

all: bin/echonet

# The default target stays `all`: it is the first rule of this file.
help:
	@sed -n '/^# - /s/^# - /  /p; /^# [A-Z].*:$$/s/^# /\n/p' Makefile

toolchain:
	@command -v rt >/dev/null || { echo "echonet: the Rattle toolchain's command rt is not on the PATH" >&2; exit 1; }

ifdef proving
# One rule for each crate: it is proved after the crates below it.
define crate_rule
bin/proved/$(1): crates.txt $$(shell find crates/$(1) -name out -prune -o \( -name '*.rt' -o -name '*.antt' \) -print) $$(patsubst %,bin/proved/%,$$(filter $$(ours),$$(call lower,$(1)))) | toolchain
	@scripts/prove.sh $(1) $$(run_$(1))
endef
# How a program is run after it is built.
run_echonet = run --help
run_test_trials = run
$(foreach name,$(ours),$(eval $(call crate_rule,$(name))))

bin/echonet: bin/proved/echonet
	@cp crates/echonet/out/echonet bin/echonet
else
.PHONY: bin/echonet
# For `make trials` this also proves a program that replays events.
bin/echonet: toolchain
	$(call prove,echonet $(if $(filter trials,$(MAKECMDGOALS)),test_trials),bin/echonet)
endif

# This program is for trying a change. scripts/quick.py compiles it again only if its sources changed.
.PHONY: bin/quick/echonet
quick: bin/quick/echonet
quick-test: bin/quick/echonet
	@python3 scripts/quick_test.py bin/quick/echonet

bin/quick/echonet: toolchain
	@python3 scripts/quick.py

# One process for each crate, since each process loads all crates below it. By default `rt ci` gives a crate up to
# four. Then some crates wait for memory that nothing uses.
test: toolchain
	RT_JOBS=$$(scripts/jobs.sh 0) rt ci

edits: toolchain
	$(call prove,$(or $(only),$(basename $(notdir $(wildcard edits/*.edits)))))
	scripts/edits.py $(only)

# Replaces a table in a document. Arguments: the script that prints it, the word of its marks, the document.
put_table = $(1) | sed -i -e '/^<!-- $(2) -->/,/^<!-- end of $(2) -->/{//!d}' -e '/^<!-- $(2) -->/r /dev/stdin' $(3)

edit-table:
	$(call put_table,scripts/edit_table.sh,edits,docs/PROOFS.md)

crate-table:
	$(call put_table,scripts/crate_table.sh,crates,docs/ARCHITECTURE.md)

times: toolchain
	@mkdir -p bin
	RT_JOBS=$$(scripts/jobs.sh 0) python3 scripts/gate_times.py bin/times.md rt ci

seconds: toolchain
	scripts/seconds.sh
	scripts/dearest.py $(only)

pictures: $(program)
	scripts/pictures.py $(program)

demo: bin/echonet
	bin/echonet show --hex - < examples/packets/sixty-byte.hex

show-examples: $(program)
	scripts/show_examples.sh $(program)

cases: $(program)
	scripts/cases.sh $(program)

story: $(program)
	examples/story.sh $(program)

net-test: $(program)
	station/tests/net-test.sh $(program)
	station/tests/net-test.sh $(program) folders

station-test: $(program)
	cd station/tests && ECHONET=$(abspath $(program)) python3 -m unittest

manual-test: $(program)
	scripts/manual.sh docs/echonet.1 $(program)

small-nets: $(program)
	ECHONET=$(abspath $(program)) python3 trials/small_nets.py

tools-test: $(program)
	set -e; for module in trials/tools/test_*.py; do ECHONET=$(abspath $(program)) trials/tools/run.sh $$module; done

follow: $(program)
	scripts/follow.sh docs/NODE.md $(program)
	scripts/follow.sh docs/REFERENCE.md $(program)
	scripts/follow.sh docs/HUB.md $(program)
	scripts/follow.sh docs/REPAIR.md $(program)

interop: $(program)
	interop/run.sh $(program)

# This installs the files of an earlier build. It does not need the toolchain.
install:
	scripts/install.sh "$(DESTDIR)" "$(PREFIX)"

uninstall:
	scripts/uninstall.sh "$(DESTDIR)" "$(PREFIX)"

deb:
	scripts/package.sh

release: bin/echonet
	scripts/release.sh

trials: $(program)
	ECHONET=$(abspath $(program)) trials/all.sh

clean:
	rm -rf bin crates/*/out
