# build: the archive and the command.  example: builds them, then does the daily job on three recordings.
# test: all proofs from nothing, must-fail edits, programs, and the tests of C, Rust, the recorder and the command.
# bench: ratios to its peers.  install, uninstall: under PREFIX, which stands below DESTDIR if that is given.
PREFIX = /usr/local
DESTDIR =
INSTALL = install

version = $(shell sed -n 's/^\#define SLT_VERSION "\(.*\)"/\1/p' include/trail.h)
archive = target/staticlib/libtrail.a
listing = target/bin/listing
sources = crates.txt $(shell find crates -name out -prune -o -type f -print)
program = command/target/release/trail
root = $(DESTDIR)$(PREFIX)

.PHONY: build example test bench install uninstall

build: $(archive)
	@tools/cargo-command build --release --quiet

$(archive): $(sources)
	@echo "proves and builds the library, some minutes the first time (target/build.log)"
	@mkdir -p $(dir $@)
	@(cd crates/trail_c && rt lib) > target/build.log 2>&1 || { rm -f $@; tail target/build.log; exit 1; }
	@cp crates/trail_c/out/libtrail_c.a $@

# To build the program is to run it: once, without input. What it prints is looked at by rt ci and by tools/reference-test.
$(listing): $(sources)
	@mkdir -p $(dir $@)
	@(cd crates/listing && rt run < /dev/null) > target/listing.log 2>&1 || { rm -f $@; tail target/listing.log; exit 1; }
	@cp crates/listing/out/listing $@

example: build
	@tools/example

test:
	@tools/test

bench: build
	cd reference && cargo run --release --offline --features archive --bin bench
	tools/cargo-command bench --quiet --bench speed

install: build
	$(INSTALL) -D -m 755 $(program) $(root)/bin/trail
	$(INSTALL) -D -m 644 include/trail.h $(root)/include/trail.h
	$(INSTALL) -D -m 644 $(archive) $(root)/lib/libtrail.a
	$(INSTALL) -D -m 644 command/trail.1 $(root)/share/man/man1/trail.1
	$(INSTALL) -d $(root)/lib/pkgconfig $(root)/share/bash-completion/completions $(root)/share/zsh/site-functions \
	    $(root)/share/fish/vendor_completions.d
	sed -e 's|@PREFIX@|$(PREFIX)|' -e 's|@VERSION@|$(version)|' tools/trail.pc.in > $(root)/lib/pkgconfig/trail.pc
	$(program) completions bash > $(root)/share/bash-completion/completions/trail
	$(program) completions zsh > $(root)/share/zsh/site-functions/_trail
	$(program) completions fish > $(root)/share/fish/vendor_completions.d/trail.fish

uninstall:
	rm -f $(root)/bin/trail $(root)/include/trail.h $(root)/lib/libtrail.a $(root)/lib/pkgconfig/trail.pc \
	    $(root)/share/man/man1/trail.1 $(root)/share/bash-completion/completions/trail \
	    $(root)/share/zsh/site-functions/_trail $(root)/share/fish/vendor_completions.d/trail.fish
