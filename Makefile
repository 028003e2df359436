# SPDX-License-Identifier: Apache-2.0 OR MIT
# orgviews: a proved Org agenda engine. `make run` builds and shows the first example, `make test` is the whole gate.
PROGRAM = crates/orgviews/out/orgviews
ORGQ = crates/orgq/out/orgq
PARTS = crates/org_measure/out/org_measure
# What `make try` builds, without any proof.
TRIED = out/orgq
SOURCES = $(shell find crates -name out -prune -o -type f \( -name '*.rt' -o -name '*.antt' \) -print) crates.txt
NOTICES = contrib/out/THIRD-PARTY-NOTICES
PACKED = $(NOTICES) contrib/out/clients
PREFIX ?= /usr/local
NEEDS_RT = $(if $(shell command -v rt),,$(error there is no `rt`: building wants Rattle's kit, with its folder bin in PATH; what is \
built already is an archive or a package, see docs/building.md))

.PHONY: run try build check changed test rows orgq-test reading faults emacs-test vim-test ical-test bench collide install deb clean
.PHONY: completions-test recipes-test agenda-test search-test review-test acts-test stranger org-agenda-test org-agenda-bench

# Builds the program where it isn't fresh, and runs the first example.
run: $(PROGRAM)
	@$(PROGRAM) --at "2024-02-28 10:30" < tests/rows/first-run

# `orgq` without any proof, for a first look: built once, some minutes, into out/, then asked for a day of two example files, or
# for ARGS: make try ARGS="-f ~/org". Without rows it ends with status 1, which is no failure here.
try: $(TRIED)
	@$(TRIED) $(if $(ARGS),$(ARGS),--no-config --at "2024-02-28 10:30" -f tests/orgq/files/home.org -f tests/orgq/files/work.org) \
	|| test $$? -eq 1

$(TRIED): $(SOURCES)
	@$(NEEDS_RT)
	@echo "orgviews: nothing is proved here; make run and make test do that"
	@python3 bench/unproved.py orgq $(TRIED)

build: $(PROGRAM) $(ORGQ) $(PACKED)

# `rt run` proves every crate below the program before it builds it, and then runs it on no input.
$(PROGRAM): $(SOURCES)
	@$(NEEDS_RT)
	@echo "orgviews: proving every crate below the program and building it (half an hour to an hour on four processors; later builds check only what changed)"
	@cd crates/orgviews && rt run -- --at "2024-02-28 10:30" < /dev/null
	@test -x $(PROGRAM) && touch $(PROGRAM)

# The same for the program that answers one question and ends, over a file of its own.
$(ORGQ): $(SOURCES)
	@$(NEEDS_RT)
	@echo "orgviews: proving and building orgq (some minutes, where the crates below it are proved)"
	@cd crates/orgq && rt run -- --at "2024-02-28 10:30" -f data/home.org > /dev/null
	@test -x $(ORGQ) && touch $(ORGQ)

# Parts of the engine on their own, for the measurements, and single calls for the faults.
$(PARTS): $(SOURCES)
	@$(NEEDS_RT)
	@echo "orgviews: proving and building the program that measures parts of the engine (some minutes)"
	@cd crates/org_measure && rt run -- stamps < /dev/null > /dev/null
	@test -x $(PARTS) && touch $(PARTS)

# Every crate, over what earlier checks kept; what these checks keep is there for `make test` then.
check:
	@$(NEEDS_RT)
	rt all check
	@python3 tests/kept.py fill

# What differs from BASE (origin/main, where there is one), and what stands above it: for daily work.
changed:
	@sh tests/changed.sh $(BASE)

# The gate: proofs, must-fail edits, tests, both builds of the program; then the worked streams and the faults. Over what `make
# check` kept, and then from nothing until MINUTES after the start (150), what FIRST names first; with WHOLE=1, or where nothing is
# kept, all from nothing.
test:
	@$(NEEDS_RT)
	@WHOLE="$(WHOLE)" MINUTES="$(MINUTES)" FIRST="$(FIRST)" sh tests/gate.sh

# What the headline rests on, in one page of links, each word behind those that it is said with; and how many lines it has.
reading:
	@python3 tests/reading.py

# The worked streams alone, over the programs as they were last built.
rows: $(PROGRAM) $(PARTS)
	@sh tests/rows.sh $(PROGRAM) $(PARTS)

# `orgq` beside `orgviews`, and its own worked cases, over both programs as they were last built.
orgq-test: $(PROGRAM) $(ORGQ)
	@sh tests/orgq.sh $(ORGQ) $(PROGRAM)

# The Emacs client over both programs as they were last built; left out where Emacs isn't installed. No part of the gate.
emacs-test: $(PROGRAM) $(ORGQ)
	@sh tests/clients.sh $(PROGRAM) $(ORGQ)

# Org's agenda with `org-views-agenda-mode` and by Org alone, in a real Emacs and in a terminal; left out where Emacs isn't
# installed. No part of the gate.
org-agenda-test: $(PROGRAM)
	@sh tests/org-agenda.sh $(PROGRAM)

# What both cost over 100,000 headings, in seconds of processor; takes minutes.
org-agenda-bench: $(PROGRAM)
	@sh bench/org-agenda.sh $(PROGRAM)

# The clients for Vim and Neovim over both programs as they were last built; an editor that isn't installed is left out. No part
# of the gate.
vim-test: $(PROGRAM) $(ORGQ)
	@sh tests/vim.sh $(ORGQ) $(PROGRAM)

# The completions of bash, zsh and fish, each run in its shell, beside what --help lists; a shell that isn't installed is left
# out. No part of the gate.
completions-test: $(ORGQ)
	@sh tests/completions.sh $(ORGQ)

# The scripts of contrib/recipes, each whose programs are installed. No part of the gate.
recipes-test: $(ORGQ)
	@sh tests/recipes.sh $(ORGQ)

# `orgq` beside a real Emacs: agendas as fields, searches, projects, habits, and files after the same acts; left out where Emacs isn't
# installed. No part of the gate.
agenda-test: $(ORGQ)
	@sh tests/agenda-csv.sh $(ORGQ)
	@sh tests/sort.sh $(ORGQ)

search-test: $(ORGQ)
	@sh tests/search-view.sh $(ORGQ)

review-test: $(ORGQ)
	@sh tests/projects.sh $(ORGQ)
	@sh tests/habits.sh $(ORGQ)

acts-test: $(ORGQ)
	@sh tests/acts.sh $(ORGQ)

# Calendars of `orgq` as it was last built, read back by khal and by python3's icalendar; what isn't installed is left out. No part
# of the gate.
ical-test: $(ORGQ)
	@sh tests/ical.sh $(ORGQ)

# What the programs do as they were last built where memory is refused, the stream is cut, reads and writes fail, a file is
# replaced on a real disk, standard streams are closed, and files have access lists.
faults: $(PROGRAM) $(PARTS) $(ORGQ)
	@sh tests/refused.sh $(PROGRAM) $(PARTS) calls
	@sh tests/devices.sh $(PROGRAM)
	@sh tests/saves.sh $(PARTS) append
	@sh tests/saves.sh $(ORGQ) done
	@sh tests/saves.sh $(ORGQ) in
	@sh tests/saves.sh $(ORGQ) out
	@sh tests/saves.sh $(ORGQ) cancel
	@sh tests/saves.sh $(ORGQ) switch
	@sh tests/saves.sh $(ORGQ) add
	@sh tests/streams.sh $(ORGQ) $(PROGRAM)
	@sh tests/access.sh $(ORGQ) all

# What README says, from an empty folder with nothing but the kit, with the minutes of each command. WHOLE=yes runs what proves
# everything too, for hours; BUILT=PROGRAM has that program answer the commands of `orgq`. No part of the gate.
stranger:
	@$(NEEDS_RT)
	@sh tests/stranger.sh

bench: $(PROGRAM) $(PARTS) $(ORGQ)
	@sh bench/run.sh $(PROGRAM) $(PARTS) $(ORGQ)

# What names that collide under a hash cost; fails where that is too much.
collide: $(PROGRAM)
	@mkdir -p bench/out
	@rustc -O -o bench/out/collide bench/collide.rs && bench/out/collide $(PROGRAM)

.PHONY: uninstall proof dist package-test kept-test

# What contrib/files.sh lists, under PREFIX: programs, pages, completions, clients, documents, licence, notices, units that stay
# off. Prints the programs' SHA-256.
install: $(PROGRAM) $(ORGQ) $(PACKED)
	@sh contrib/install.sh add "$(DESTDIR)$(PREFIX)"
	@cd "$(DESTDIR)$(PREFIX)/bin" && sha256sum orgviews orgq

# Takes away what `install` put there, and nothing else.
uninstall:
	@sh contrib/install.sh remove "$(DESTDIR)$(PREFIX)"

# The notices of the kit's libraries that are in the programs; what editors want beside the clients' own files.
$(NOTICES): $(PROGRAM) $(ORGQ) contrib/notices.sh
	@$(NEEDS_RT)
	@mkdir -p contrib/out
	@sh contrib/notices.sh > $@.new && mv $@.new $@

contrib/out/clients: $(shell find clients -type f) contrib/clients.sh
	@sh contrib/clients.sh

# What was proved, for archive and package: wants what the whole gate wrote of these sources (`make test WHOLE=1`), and checks each
# crate of the programs over what earlier checks kept (some minutes).
proof: $(PROGRAM) $(ORGQ)
	@$(NEEDS_RT)
	@sh contrib/proof.sh

# The gate over kept proofs with a stand-in for the prover, in a minute or two. No part of the gate.
kept-test:
	@$(NEEDS_RT)
	@sh tests/kept.sh

# An archive of what `install` installs, the same to the byte whenever it is made of the same, into this folder.
dist: $(PROGRAM) $(ORGQ) $(PACKED) proof
	@sh contrib/dist.sh

# A Debian package of it, into this folder.
deb: $(PROGRAM) $(ORGQ) $(PACKED) proof
	@sh contrib/deb.sh

# What of all this can be tried without a proof and without root. No part of the gate.
package-test:
	@sh tests/package.sh

clean:
	rm -rf crates/*/out bench/out contrib/out out
