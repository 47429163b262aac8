# Needs the Rattle toolchain (`rt` on the path).

.PHONY: help test run mvt tools install check play picture test-check test-play test-install pictures examples documents rows hostile bench

# Where `make install` copies the programs to.
PREFIX ?= /usr/local

# The session that `make run`, `make check`, `make play` and `make picture` read.
SESSION ?= examples/first.session

# How many runs `make bench` has side by side.
JOBS ?= 1

# What the program is made from.
SOURCES = crates.txt $(wildcard crates/*/src/*.rt crates/*/src/*/*.rt)

help:
	@echo 'make run [SESSION=FILE]   runs a session (examples/first.session) with the program as it stands, not proved:'
	@echo '                          a minute or two where something changed, else at once'
	@echo 'make mvt                  proves the program and all that it stands on, and builds it to ./mvt'
	@echo 'make tools                so for ./mvt-check, which says why decks are refused, ./mvt-play, which plays a session on until nothing'
	@echo '                          moves, and ./mvt-picture, which draws one'
	@echo 'make check [SESSION=FILE]    says why the decks of a session are refused; make play [SESSION=FILE] plays it on;'
	@echo '                          make picture [SESSION=FILE] draws it to picture.svg: with the programs as they stand, not proved'
	@echo 'make install [PREFIX=DIR]  copies the programs that make mvt and make tools built, with a manual page for each, to DIR (/usr/local)'
	@echo 'make test-install         installs them to a folder of its own, and looks at what is there'
	@echo 'make test-check           compares the sessions of tests/check/ with ./mvt-check'
	@echo 'make pictures             draws each session of examples/ with ./mvt-picture, and compares the pictures with the listings'
	@echo 'make test-play            compares the sessions of tests/play/ with ./mvt-play and ./mvt'
	@echo 'make examples             runs each session of examples/ with ./mvt and compares the listings'
	@echo 'make documents            compares README.md and docs/ with ./mvt: what examples print, how refusals are reported; and looks for'
	@echo '                          what they cite'
	@echo 'make rows                 compares the worked rows that are texts with ./mvt, and their tables with worked_rows'
	@echo 'make hostile              refuses each allocation in turn and runs mutated sessions, after make test'
	@echo 'make bench [JOBS=N]       counts the instructions of ./mvt on the sessions of bench/, by callgrind, N side by side (1), and'
	@echo '                          names what takes over a twentieth more than bench/README.md says: twenty minutes, or seven with JOBS=3'
	@echo 'make test                 the gate: every proof from nothing, the edits that must fail, the tests, the programs'

# Runs the program on a session. Nothing is proved. What it needs is looked for before it is built.
run:
	@command -v rt >/dev/null || { echo 'make run needs the Rattle toolchain: there is no rt on the path.' >&2; exit 2; }
	@test -r '$(SESSION)' || { echo 'make run finds no session $(SESSION).' >&2; exit 2; }
	@$(MAKE) --no-print-directory mvt-unproved
	@./mvt-unproved <'$(SESSION)'

# The program as it stands, built and not proved.
mvt-unproved: $(SOURCES)
	@tests/unproved.sh $@

# The proved program.
mvt:
	cd crates/mvt_main && rt run </dev/null
	cp crates/mvt_main/out/mvt_main mvt

# The proved tools beside it.
tools: mvt-check mvt-play mvt-picture

mvt-check: $(SOURCES)
	cd crates/mvt_check && rt run </dev/null
	cp crates/mvt_check/out/mvt_check mvt-check

mvt-play: $(SOURCES)
	cd crates/mvt_play && rt run </dev/null
	cp crates/mvt_play/out/mvt_play mvt-play

mvt-picture: $(SOURCES)
	cd crates/mvt_picture && rt run </dev/null >/dev/null
	cp crates/mvt_picture/out/mvt_picture mvt-picture

# Copies the proved programs and their manual pages, which are made from what they print of themselves. Nothing is built.
install:
	@tests/install.sh '$(DESTDIR)$(PREFIX)'

test-install: mvt tools
	tests/install.sh --test

# The tools on a session. Nothing is proved.
check: mvt-check-unproved
	@./mvt-check-unproved <'$(SESSION)'

play: mvt-play-unproved
	@./mvt-play-unproved <'$(SESSION)'

picture: mvt-picture-unproved
	@./mvt-picture-unproved <'$(SESSION)' >picture.svg

mvt-check-unproved: $(SOURCES)
	@tests/unproved.sh $@ mvt_check

mvt-play-unproved: $(SOURCES)
	@tests/unproved.sh $@ mvt_play

mvt-picture-unproved: $(SOURCES)
	@tests/unproved.sh $@ mvt_picture

# Draws the examples, and reads the pictures.
pictures: mvt-picture
	tests/pictures.sh ./mvt-picture

# Compares what ./mvt-check says of the decks of tests/check/, and its first numbers with those of ./mvt.
test-check: mvt tools
	tests/check.sh ./mvt-check ./mvt
	tests/misuse.sh ./mvt ./mvt-check ./mvt-play ./mvt-picture
	python3 tests/faults.py ./mvt-check
	python3 tests/independent.py ./mvt-check
	python3 tests/mistakes.py ./mvt-check

# Compares what ./mvt-play writes with the sessions that were played on.
test-play: mvt tools
	tests/play.sh ./mvt-play ./mvt

# Compares the listings of the examples with those that ./mvt writes.
examples: mvt
	tests/examples.sh ./mvt

# Compares the documents with ./mvt and ./mvt-check: their examples, and what docs/REFUSALS.md says is reported; the table of examples; the layers of crates; and what is asked of callers.
documents: mvt mvt-check
	python3 tests/documents.py ./mvt
	python3 tests/citations.py
	python3 tests/layers.py
	python3 docs/map.py --check
	python3 tests/requires.py
	python3 tests/asked.py
	python3 tests/document_rows.py --check

# Compares the worked rows that are texts. The program that compares their tables is that of the gate, or is proved first.
rows: mvt
	test -x crates/worked_rows/out/worked_rows || (cd crates/worked_rows && rt run </dev/null)
	python3 tests/rows.py ./mvt
	tests/examples.sh ./mvt

# Hostile use, beside what the gate has of it: memory is refused and sessions are mutated; each script with its time. REFERENCE is a
# command that reads a session and writes its listing, where there is one.
hostile: mvt
	@for it in 'tests/refused_memory.sh' 'tests/hostile.sh $(REFERENCE)'; do \
		start=$$(date +%s); $$it || exit 1; echo "$$it: $$(($$(date +%s) - start)) s"; done

# Instructions and memory of the proved program on the sessions of bench/, each beside half its size, so many runs side by side. It fails
# where something takes over a twentieth more than bench/README.md says.
bench: mvt
	python3 bench/instructions.py --jobs $(JOBS) --compare ./mvt

# The gate, with the number of processors in front, and on the stream of errors its time behind: that of the clock, and of all processors.
test:
	@echo "processors: $$(nproc)"
	@bash -c 'time rt ci'
