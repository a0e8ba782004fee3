# sedck and sedck-explain, on a machine that has the Rattle toolchain: `make demo` shows them without a proof, `make try SCRIPTS="a.sed"`
# explains scripts of your own without one, `make build` proves and builds them, `make sedck` the checker alone, `make test` proves and tests everything.

RT ?= rt
PREFIX ?= /usr/local

.PHONY: all build sedck lib demo try page try-page test docs examples rows explain-tests refusals streams tools-tests calls-tests wrapper-tests \
	page-tests library-tests integration-tests archive-tests bench planted seds matchers states changes shells measures probe install uninstall packable dist verify clean

# One target after the other, also under `make -j`: proofs want all processors and much memory, and tests have limits of time.
.NOTPARALLEL:

all: build

# Puts both programs that the gate built into build, each at once.
COPY = mkdir -p build && cp crates/sedck/out/sedck build/sedck.new && mv build/sedck.new build/sedck && \
	cp crates/sedck_explain/out/sedck_explain build/sedck-explain.new && mv build/sedck-explain.new build/sedck-explain

# The script has `rt` prove crate by crate what has changed, as many at a time as there are processors, and puts each program in place.
build:
	@echo "Proving and building sedck and sedck-explain (a first build proves everything: 70 to 140 processor minutes) ..."
	@python3 tools/prove.py "$(RT)"
	@echo "The programs are build/sedck and build/sedck-explain."

sedck:
	@echo "Proving and building sedck (a first build proves everything that it needs: 25 to 60 processor minutes) ..."
	@python3 tools/prove.py "$(RT)" sedck
	@echo "The program is build/sedck."

# The library for C, with the functions for memory that it needs. `make dist` packs it with its header.
lib:
	@echo "Proving and building libsedck.a (a first build proves everything that it needs: 25 to 60 processor minutes) ..."
	@CC="$(CC)" python3 tools/library.py "$(RT)"
	@echo "The library is build/libsedck.a, its header library/sedck.h."

# `rt try` runs the programs without a proof, and leaves nothing behind.
demo:
	@python3 tools/demo.py "$(RT)"

# What `rt try` has compiled is kept in build/unproved until a source is newer. The words of SCRIPTS are those of sedck-explain.
try:
	@python3 tools/try.py "$(RT)" $(SCRIPTS)

# One HTML file with both programs in WebAssembly; this also needs wasm-opt (package binaryen).
page: build
	@echo "Making build/page/sedck.html from the proved programs (five processor minutes after a change of a crate) ..."
	@python3 tools/page.py "$(RT)"

# The same without proofs; with PROVED=sedck the small module, whose yes counts, is that of the proved checker.
try-page: $(if $(PROVED),sedck)
	@echo "Making build/page/sedck.html without proofs (five processor minutes after a change of a crate) ..."
	@python3 tools/page.py "$(RT)" --unproved $(if $(PROVED),,sedck) sedck_explain

# The gate proves everything and builds the programs; the tests are then those that stand alone, with `build` and the programs of tests as
# they are, so that nothing is proved or built again. A C compiler that is missing is missed before the gate. What tests skip is listed at the end.
test: build/refuse.so
	@rm -f build/skipped
	@echo "Running the gate: every proof from nothing, wrong bodies, the tests and the programs (90 to 200 processor minutes) ..."
	@python3 tools/gate.py "$(RT)"
	@$(COPY)
	@CC="$(CC)" python3 tools/library.py "$(RT)" --of-gate
	@if command -v wasm-opt > /dev/null; then python3 tools/page.py "$(RT)"; else echo "page: skipped: wasm-opt (package binaryen) isn't there"; fi
	@SEDCK_SKIPPED="$(CURDIR)/build/skipped" $(MAKE) --no-print-directory -o build -o probe -o lib docs rows explain-tests refusals streams tools-tests calls-tests wrapper-tests \
		page-tests library-tests integration-tests archive-tests
	@python3 tools/planted.py "$(RT)" --behind || true
	@cat build/gate-cost
	@if [ -s build/skipped ]; then echo "These parts of tests were skipped:"; cat build/skipped; else echo "No test was skipped."; fi

docs examples: build
	@echo "Checking the documents: the examples and their certificates, and each command that the pages show ..."
	python3 tests/run.py docs

rows: build probe
	@echo "Running build/sedck on rows of scripts and certificates ..."
	python3 tests/run.py rows matchers

explain-tests: build probe
	@echo "Testing the reports of sedck-explain ..."
	python3 tests/run.py $@

# `sedck_probe --twice` makes one call twice, also those that sedck doesn't show; the library refuses one request for memory of the program that it is loaded into.
refusals: build probe build/refuse.so
	@echo "Refusing each request for memory in turn ..."
	python3 tests/run.py $@

build/refuse.so: tests/refuse.c
	@mkdir -p build
	$(CC) -O2 -Wall -Wextra -shared -fPIC -o build/refuse.so tests/refuse.c

streams: build
	@echo "Writing reports to streams that accept nothing ..."
	python3 tests/run.py $@

tools-tests:
	@echo "Testing make build, make demo, make try and make dist with a stand-in for rt ..."
	python3 tests/run.py $@

calls-tests: build
	@echo "Comparing what is made of the words of a call with two other readers, and the calls in files with the shell ..."
	python3 tests/run.py $@

wrapper-tests: build
	@echo "Testing the sed that has its calls judged, the formatter, known errors, and scripts of strangers ..."
	python3 tests/run.py $@

# Tests the page that is there: without it, or without a tool, a line says what is skipped.
page-tests:
	@echo "Testing the page that make page has made, if there is one ..."
	python3 tests/run.py $@

library-tests: lib build build/refuse.so
	@echo "Judging by the library, from C and from Python, and refusing each request for memory in turn ..."
	python3 tests/run.py $@

integration-tests: build
	@echo "Testing the language server, the completions, the macro of Autoconf, the action, the lines for editors and the packages ..."
	python3 tests/run.py $@

archive-tests: build lib
	@echo "Packing an archive, and installing from it and by make install ..."
	python3 tests/run.py $@

bench: build
	@echo "Measuring build/sedck and build/sedck-explain (bench/run.py prints the tables of docs/BENCH.md) ..."
	python3 bench/run.py build/sedck
	python3 bench/folder.py build/sedck build/sedck-explain

# More arguments in SEDS, such as `--scripts 200000 --jobs 3`, `--folder DIR` or `--sed NAME=COMMAND`.
seds: build
	@echo "Running every sed that is found beside build/sedck (20,000 scripts take up to ten processor minutes) ..."
	python3 tests/seds/seds.py build/sedck $(SEDS)

# More arguments in MATCHERS, such as `--expressions 200000 --jobs 3`, `--high 1`, `--unrefused` or `--sed NAME=COMMAND`.
matchers: build
	@echo "Looking for expressions that the matchers of real seds get wrong (20,000 take a few minutes) ..."
	python3 tests/seds/seds_matchers.py build/sedck-explain build/sedck $(MATCHERS)

# The wrong bodies that the gate leaves out, of the crates that have changed since they were tried: `PLANTED=NAME` has those of one crate
# tried, `BELOW=1` also those of crates below which something has changed, `ALL=1` all of them.
planted:
	@echo "Trying the wrong bodies that the gate leaves out, where crates have changed (all of them: 70 to 150 processor minutes) ..."
	python3 tools/planted.py "$(RT)" $(if $(ALL),--all,$(if $(BELOW),--below,$(PLANTED)))

# More arguments in STATES, such as `--steps 1000000`, `--folder DIR` or `--sed NAME=COMMAND`.
states: probe
	@echo "Holding every step of every sed that is found against the model (100,000 steps take a few minutes) ..."
	python3 tests/seds/seds_states.py crates/sedck_probe/out/sedck_probe $(STATES)

# More arguments in SHELLS, such as `--files 20000 --jobs 3`, `--seed 5` or `--show`; folders with shell files for `shfmt` in TREES.
shells: build
	@echo "Running drawn files with calls of sed in every shell and make that is found (2,000 take a few minutes) ..."
	python3 tests/seds/seds_calls.py build/sedck-explain $(SHELLS)
	python3 tests/seds/seds_trees.py build/sedck-explain $(TREES)

measures:
	python3 tools/measures.py

changes: probe
	@echo "Holding real seds against changed models (a minute for each change) ..."
	python3 tests/seds/seds_changes.py crates/sedck_probe/out/sedck_probe --rt "$(RT)"

probe:
	cd crates/sedck_probe && $(RT) run -- --places ../../examples/end-mark.sed > /dev/null

# Copies what build has, and proves nothing: what is missing is named.
install:
	@echo "Installing what build has under $(PREFIX): programs, library, completions, manual pages and the pages that reports name ..."
	@python3 tools/dist.py --install "$(PREFIX)" "$(DESTDIR)"

# Removes what install, or an archive's install.sh, has put there, by the list that it kept.
uninstall:
	@PREFIX="$(PREFIX)" DESTDIR="$(DESTDIR)" sh tools/install.sh --uninstall

# Nothing is packed of files that aren't as they were committed: that is looked at before anything is built.
packable:
	@python3 tools/dist.py --look

# With ADDRESS=https://HOST/OWNER/sedck/blob the pages in the archive have links to the sources of the commit, below that address.
dist: packable build lib
	@echo "Packing the programs, the library, their pages and all that is installed, with their check sums ..."
	@CC="$(CC)" ADDRESS="$(ADDRESS)" python3 tools/dist.py "$(RT)" --by "make dist"

# Builds the commit of an archive again, in a clone, and compares each file. BUILD names another command for the build.
verify:
	@BUILD="$(BUILD)" python3 tools/verify.py "$(ARCHIVE)" "$(RT)"

clean:
	@echo "Removing what was built, and what checks left in crates/*/out ..."
	rm -rf build out crates/*/out
