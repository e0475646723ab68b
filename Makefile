# What each command does, and when to use it, is said in CONTRIBUTING.md. `make help` prints the lines that begin
# with two number signs: each target has one.
.PHONY: help run township try test e2e descriptions check bugs bench lib dist install install-built install-lib uninstall man trust clean

# Where `make install` puts the program, its man page, the completions, and the library with its header: in the
# folders bin, share, lib and include. With DESTDIR they are put below another root.
PREFIX = /usr/local
SHARE = $(DESTDIR)$(PREFIX)/share

# What is installed: the program, and the folder of the library.
PROGRAM = township
LIBRARY = lib

# `make` alone proves, builds, and runs the program.
.DEFAULT_GOAL = run

## help           list the targets
help:
	@sed -n 's/^## //p' Makefile

## run            prove and build the program, and run it on the sample
# The first answer is made while the proofs begin, since it keeps one processor busy for a minute.
run:
	@sh tools/first_answer.sh & sh tools/build.sh && wait $$!
	@cat samples/description.txt samples/b1.csv | ./township

## township       prove and build the program: ./township
township:
	@sh tools/build.sh

## try            run the program on the sample before any proof, in about 20 seconds
try:
	@cd crates/twp_cmd && rt try < stdin

## test           prove everything from nothing, and test it; the last line is N passed, 0 failed
# What takes a second is tested before the proofs, too, since they take most of an hour. tools/gate.sh is the kit's own
# `rt ci`.
test:
	@sh tests/quick.sh
	@bash tools/gate.sh
	@sh tests/proved.sh

## e2e            build the program, and test it on files, pipes, and devices
e2e: township
	@cd crates/twp_trials && rt run -- write-acres 3905 2 > /dev/null
	@sh tests/e2e.sh

## descriptions   build the programs, and measure which descriptions, as people write them, have the right reading
# Last, that none of them is read as other land if it is damaged.
descriptions: township
	@cd crates/twp_trials && rt run -- write-acres 3905 2 > /dev/null
	@for author in $$(sed '1d; s/\t.*//' tests/descriptions/floors.tsv); do \
		python3 tests/descriptions/suggested.py ./township crates/twp_trials/out/twp_trials \
			tests/descriptions/$$author.tsv || exit 1; \
	done
	@python3 tests/descriptions/unread.py
	@python3 tests/descriptions/mutated.py

## check          prove all crates, and nothing else
check:
	rt all check

## bugs           try all wrong bodies, also those for releases; CRATES='..' names crates, LANES=N limits the checks
# `make bugs CRATES='twp_grid twp_land' LANES=2` tries those of these crates alone, with at most two checks at a time.
CRATES =
LANES =

bugs:
	@python3 tools/bugs.py $(if $(LANES),--lanes $(LANES)) $(CRATES)

## lib            prove and build the library for C: lib/libtownship.a and .so
lib:
	@sh tools/library.sh $(PREFIX)

## dist           make the packages of a release in dist/, from the proved program and library
dist: township lib
	@sh packaging/dist.sh

## bench          count instructions, and compare them with bench/expected; measure the page
bench:
	@sh bench/lands.sh
	@sh bench/descriptions.sh
	@sh bench/library.sh
	@sh bench/readings.sh
	@sh bench/instructions.sh
	@sh bench/page.sh

## install        install what `make township lib` built below PREFIX, /usr/local if none is given; proves nothing again
# Installs what `make township lib` has built, and proves nothing again: so it can be run as root, without the kit.
install:
	@sh tools/built.sh $(PROGRAM) $(LIBRARY)
	@$(MAKE) --no-print-directory install-built install-lib

## install-built  install the program that was built, with its man page and completions
install-built:
	install -d $(DESTDIR)$(PREFIX)/bin $(SHARE)/man/man1
	install -d $(SHARE)/bash-completion/completions $(SHARE)/zsh/site-functions
	install -m 755 $(PROGRAM) $(DESTDIR)$(PREFIX)/bin/township
	install -m 644 man/township.1 $(SHARE)/man/man1/township.1
	install -m 644 completions/township.bash $(SHARE)/bash-completion/completions/township
	install -m 644 completions/_township $(SHARE)/zsh/site-functions/_township

## install-lib    install the library that was built, with its header
install-lib:
	install -d $(DESTDIR)$(PREFIX)/lib/pkgconfig $(DESTDIR)$(PREFIX)/include
	install -m 644 include/township.h $(DESTDIR)$(PREFIX)/include/township.h
	install -m 644 $(LIBRARY)/libtownship.a $(DESTDIR)$(PREFIX)/lib/libtownship.a
	install -m 755 $(LIBRARY)/libtownship.so.*.*.* $(DESTDIR)$(PREFIX)/lib/
	for link in $(LIBRARY)/libtownship.so $(LIBRARY)/libtownship.so.?; do \
		ln -sf $$(readlink $$link) $(DESTDIR)$(PREFIX)/lib/$$(basename $$link); done
	sed 's|^prefix=.*|prefix=$(PREFIX)|' $(LIBRARY)/township.pc > $(DESTDIR)$(PREFIX)/lib/pkgconfig/township.pc
	chmod 644 $(DESTDIR)$(PREFIX)/lib/pkgconfig/township.pc

## uninstall      remove what `make install` put below PREFIX
uninstall:
	rm -f $(DESTDIR)$(PREFIX)/bin/township $(SHARE)/man/man1/township.1
	rm -f $(SHARE)/bash-completion/completions/township $(SHARE)/zsh/site-functions/_township
	for link in $(DESTDIR)$(PREFIX)/lib/libtownship.so.?; do \
		if [ -h $$link ]; then rm -f $(DESTDIR)$(PREFIX)/lib/$$(readlink $$link) $$link; fi; done
	rm -f $(DESTDIR)$(PREFIX)/lib/libtownship.so $(DESTDIR)$(PREFIX)/lib/libtownship.a
	rm -f $(DESTDIR)$(PREFIX)/lib/pkgconfig/township.pc $(DESTDIR)$(PREFIX)/include/township.h

## man            write the man page from its template and docs/REFUSALS.md
man:
	@sh tools/man_page.sh

## trust          write docs/TRUST.md, the list of what the headline rests on
trust:
	@python3 tools/reading_list

## clean          remove what was built, and what the checks kept
clean:
	rm -rf crates/*/out lib township dist gate.log bugs.log .bugs
