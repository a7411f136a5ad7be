# Height Office: what people do with the repository. `make help` lists the most, `make help-all` all of it.

PROGRAM := crates/height_office/out/height_office
CALLS := crates/tests_memory/out/tests_memory
PREFIX ?= /usr/local
BOOK ?= examples/building_site.gsi
LOG := build.log

.PHONY: help help-all try run refuse list toolchain build built calls check test gate examples statuses killed files completions documents \
	made-up edits unused alike measure guides reserved compare office mutated each-byte pages page-seen page-tidy planted memory attacks \
	attacks-of-today hostile bench install uninstall clean

help:
	@echo 'make try       adjust an example and show its report in a few minutes, with nothing proved and no program kept (yours: MARKS=FILE BOOK="FILE ..")'
	@echo 'make run       prove the laws and the program, build it, adjust an example project, show its report and check its certificate'
	@echo 'make refuse    prove a function of the checker, break a line of it in a copy, and show that the prover refuses it: a minute or two'
	@echo 'make list      prove and build the program, and list a book (BOOK=$(BOOK))'
	@echo 'make build     prove and build the program: $(PROGRAM)'
	@echo 'make check     while you work: prove what changed, then run the tests of the program and the checks'
	@echo 'make test      the gate: every proof from nothing, must-fail edits, tests, program runs; then what make check runs, and more'
	@echo 'make attacks   try the edits of attacks/, more mistakes that the prover must refuse (hours)'
	@echo 'make bench     throughput and peak memory of each command and of what it does, beside other programs'
	@echo 'make install   copy the built program, its manual page and completions below $(PREFIX); proves nothing'
	@echo 'make uninstall remove them'
	@echo 'make clean     remove what was built'
	@echo 'make help-all  list each test and each check too'

help-all: help
	@echo
	@echo 'make gate      rt ci alone'
	@echo 'make calls     prove and build the program that `make memory` runs beside the other'
	@echo
	@echo 'Tests of the built program, which make check and make test run:'
	@echo 'make examples  compare what the built program gives for examples/ with the files there'
	@echo 'make statuses  run the built program on command lines and inputs that fail, and compare status and lines'
	@echo 'make killed    kill runs over existing outputs, which must stay whole files, old or new (RUNS=$(RUNS))'
	@echo 'make files     run the built program with each call on files refused in turn, two runs at once (PAIRS=$(PAIRS)), planted outputs'
	@echo 'make completions  test the completions for bash, zsh and fish'
	@echo 'make reserved  run the built program with little room to reserve memory, on small and on full inputs'
	@echo 'make compare   compare the built program with the second reader on mutated books (BOOKS=$(BOOKS) SEED=$(SEED))'
	@echo 'make office    compare the built program with the second office on random projects (PROJECTS=$(PROJECTS) SEED=$(SEED))'
	@echo 'make mutated   the same on mutated books, tables and certificates (INPUTS=$(INPUTS) SEED=$(SEED)); a million take hours'
	@echo 'make page-tidy read sample pages by a parser that knows what a page may have, and by tidy where it is installed'
	@echo 'make planted   plant wrong numbers in surveys, and compare what comes of them with explain and review (every one in EVERY=$(EVERY))'
	@echo 'make memory    run the built program, and the calls that `make calls` builds, with each allocation refused in turn'
	@echo
	@echo 'Checks of the repository, which make check and make test run:'
	@echo 'make documents test the pages: commands, links, sizes, and docs/THEOREM.md against the definitions'
	@echo 'make made-up   fail where product code creates an allocation failure itself, but in the listed places'
	@echo 'make edits     fail where an edit of must-fail/ or attacks/ no longer fits the code'
	@echo 'make unused    fail where nothing uses a lemma or a definition'
	@echo 'make alike     fail where places of the program share many lines of code, within a crate or in two'
	@echo 'make measure   fail where a crate has too many functions or lines'
	@echo
	@echo 'Tests that take their time:'
	@echo 'make guides    run the tests of the solver with guides that are no help (some minutes); make test runs it'
	@echo 'make each-byte like make mutated, on each beginning and each changed byte of a book, a table and two certificates (some minutes)'
	@echo 'make pages     compare pages of rows that few surveys have with those of the second office (PAGES=$(PAGES) SEED=$(SEED))'
	@echo 'make page-seen take pictures of pages in Chromium to be looked at, and measure the pages there: out/page_seen'
	@echo 'make attacks-of-today  try some edits of attacks/, other ones each day (ATTACKS=$(ATTACKS))'
	@echo 'make hostile   time and memory of books, tables, certificates and networks that are made to cost time'

try: toolchain
	@echo 'compiling the program, which is not proved yet: a few minutes'
	@tools/try_example $(if $(MARKS),$(MARKS) $(BOOK))
	@echo 'with books of your own: make try MARKS=marks.csv BOOK="monday.gsi tuesday.gsi"; make run proves the program and keeps it'

run: build
	@tools/adjust_example --program $(PROGRAM)

refuse: toolchain
	@tools/refuse

list: build
	@$(PROGRAM) list $(BOOK)

toolchain:
	@command -v rt > /dev/null || { echo 'this needs the Rattle toolchain: its command rt is not found'; exit 1; }
	@command -v python3 > /dev/null || { echo 'this needs Python 3.8 or later: python3 is not found'; exit 1; }

build: toolchain
	@echo 'proving the laws, and proving and building $(PROGRAM): long at first, seconds where nothing changed; the log is $(LOG)'
	@tools/build --log $(CURDIR)/$(LOG)

# For what needs the program and does not build it.
built:
	@test -x $(PROGRAM) || { echo 'this needs the built program: run `make build` first'; exit 1; }

# What `make memory` runs beside the program.
calls:
	@cd crates/tests_memory && rt run < /dev/null > ../../$(LOG) 2>&1 || { tail -n 40 ../../$(LOG); exit 1; }

# Tests of the built program and checks of the repository, several at a time: each works in folders of its own.
SCRIPTS := examples statuses killed files completions documents made-up edits unused alike measure reserved compare office mutated page-tidy planted memory
AT_ONCE ?= $(shell nproc)
SIDE_BY_SIDE = $(MAKE) --no-print-directory --jobs=$(AT_ONCE) --output-sync=target

check:
	@echo 'proving what changed; the log is $(LOG)'
	@rt all check > $(LOG) 2>&1 || { tail -n 40 $(LOG); exit 1; }
	@$(MAKE) --no-print-directory build calls
	@$(SIDE_BY_SIDE) $(SCRIPTS)

# The gate leaves the program that it proved and built, so nothing is proved again after it.
test: gate
	@$(SIDE_BY_SIDE) try guides $(SCRIPTS)

gate:
	@rt ci

examples: built
	@tests/examples --program $(PROGRAM)

statuses: built
	@tests/statuses/run.py --program $(PROGRAM)
	@tests/first_contact --program $(PROGRAM)
	@tests/shown_bytes --program $(PROGRAM)
	@tests/books_of_tables --program $(PROGRAM)
	@tests/large_pages --program $(PROGRAM)

RUNS ?= 100
killed: built
	@tests/killed --program $(PROGRAM) --runs $(RUNS)

PAIRS ?= 500
files: built
	@tests/refused_files/run.py --program $(PROGRAM) --pairs $(PAIRS)
	@tests/refused_files/planted.py --program $(PROGRAM)

completions: built
	@tests/completions --program $(PROGRAM)

documents: built
	@checks/documents --program $(PROGRAM)

made-up:
	@checks/no_memory_made_up

edits:
	@checks/edits

unused:
	@checks/unused

alike:
	@checks/alike

measure:
	@checks/measure --large

guides:
	@tests/bad_guides/run

reserved: built
	@tests/reserved_memory --program $(PROGRAM)

BOOKS ?= 10000
SEED ?= 20240607
compare: built
	@python3 tests/second_reader/self_test.py
	@python3 tests/second_reader/compare.py --program $(PROGRAM) --books $(BOOKS) --seed $(SEED)

PROJECTS ?= 1000
NETWORKS ?= 1000
TABLES ?= 2000
office: built
	@python3 tests/second_office/self_test.py
	@python3 tests/second_office/try_laws.py --networks $(NETWORKS)
	@python3 tests/second_office/compare.py --program $(PROGRAM) --projects $(PROJECTS) --seed $(SEED)
	@python3 tests/second_office/mend.py --random $(TABLES) $(SEED) --program $(PROGRAM)

INPUTS ?= 1000
mutated: built
	@python3 tests/second_office/compare_mutated.py --program $(PROGRAM) --inputs $(INPUTS) --seed $(SEED)

each-byte: built
	@python3 tests/second_office/compare_mutated.py --program $(PROGRAM) --each-byte

PAGES ?= 200
pages: toolchain
	@python3 tests/second_office/compare_page.py --projects $(PAGES) --seed $(SEED)

page-seen:
	@command -v chromium > /dev/null || { echo 'this needs Chromium: its command chromium is not found'; exit 1; }
	@tests/page_seen out/page_seen

page-tidy:
	@tests/page_tidy

EVERY ?= 10
TRIES ?= 2
planted: built
	@tests/planted/explained.py --program $(PROGRAM) --share $(EVERY)
	@tests/planted/reviewed.py --program $(PROGRAM) --share $(EVERY)
	@tests/planted/meant.py --program $(PROGRAM) --share $(EVERY)
	@tests/planted/mended.py --program $(PROGRAM) --share $(EVERY)
	@tests/planted/sentences.py --program $(PROGRAM) --tries $(TRIES)
	@tests/planted/names.py --program $(PROGRAM) --tries $(TRIES)
	@tests/planted/noted.py --program $(PROGRAM)
	@tests/planted/verdicts.py --program $(PROGRAM) --tries $(TRIES)
	@tests/planted/one_more.py --program $(PROGRAM)

memory: built
	@tests/refused_memory/run.py --program $(PROGRAM) --calls $(CALLS)

attacks:
	@checks/attacks

ATTACKS ?= 10
attacks-of-today:
	@checks/attacks --today $(ATTACKS)

hostile: built
	@bench/hostile/run --program $(PROGRAM)

bench: build
	@bench/list/run --program $(PROGRAM)
	@bench/network/run
	@bench/certificate/run
	@bench/settle/run
	@bench/adjust/run --program $(PROGRAM)
	@bench/review/run --program $(PROGRAM)
	@bench/explain/run --program $(PROGRAM)
	@bench/page/run --program $(PROGRAM)
	@$(MAKE) --no-print-directory hostile

SHARE = $(DESTDIR)$(PREFIX)/share
INSTALLED = $(DESTDIR)$(PREFIX)/bin/height_office $(SHARE)/man/man1/height_office.1 \
	$(SHARE)/bash-completion/completions/height_office $(SHARE)/zsh/site-functions/_height_office \
	$(SHARE)/fish/vendor_completions.d/height_office.fish

install: built
	install -D $(PROGRAM) $(DESTDIR)$(PREFIX)/bin/height_office
	install -D -m 644 docs/height_office.1 $(SHARE)/man/man1/height_office.1
	install -D -m 644 completions/height_office.bash $(SHARE)/bash-completion/completions/height_office
	install -D -m 644 completions/_height_office $(SHARE)/zsh/site-functions/_height_office
	install -D -m 644 completions/height_office.fish $(SHARE)/fish/vendor_completions.d/height_office.fish

uninstall:
	rm -f $(INSTALLED)

clean:
	rm -rf crates/*/out out $(LOG)*
