# make            the archive, the spool program and the example front end
# make run        an HTTP request through the example front end, and its SCGI bytes through the spool program
# make test       the whole gate: proofs, edits that must be refused, programs, tests
# make check      prove what changed
# make bench      the archive beside the Rust implementation, and the spool program beside cat and wc
# make install    headers, archive, pkg-config file and programs below PREFIX (and DESTDIR); make uninstall takes them away
# make fmt, make clean
PREFIX ?= /usr/local
CC ?= cc
CFLAGS ?= -O2
WARNINGS = -std=c89 -Wall -Wextra -Wpedantic -Werror
ARCHIVE = target/staticlib/libcapi.a
# what the archive is made from: all but the programs and what they print by, and nothing that rt made
SOURCES := crates.txt $(shell find crates \( -path crates/spool -o -path 'crates/*vectors' -o -path crates/printing -o -name out \) -prune -o \
	\( -name '*.rt' -o -name '*.antt' \) -print)
SPOOL = target/bin/spool
FRONT = target/example/front
HEADERS = include/oyinkafubo.h include/oyinkafubo_text.h
# the header is the one source of the version
VERSION := $(shell awk '/^.define OYINKAFUBO_VERSION_(MAJOR|MINOR|PATCH) / { v = v dot $$3; dot = "." } END { print v }' include/oyinkafubo.h)
TO = $(DESTDIR)$(PREFIX)

.PHONY: all archive spool example run test check bench install uninstall version fmt clean

all: archive spool example

archive: $(ARCHIVE)

# rt proves and builds only what changed
$(ARCHIVE): $(SOURCES)
	cd crates/capi_c && rt lib
	@mkdir -p $(dir $@)
	cp crates/capi_c/out/libcapi_c.a $@

# rt builds a program as it runs it: here on a spool of no bytes
spool:
	cd crates/spool && rt run </dev/null >/dev/null
	@mkdir -p $(dir $(SPOOL))
	cp crates/spool/out/spool $(SPOOL)

example: $(FRONT)

$(FRONT): examples/front.c $(HEADERS) $(ARCHIVE)
	@mkdir -p $(dir $(FRONT))
	$(CC) $(CFLAGS) $(WARNINGS) -Iinclude examples/front.c $(ARCHIVE) -o $(FRONT)

run: example spool
	$(FRONT)
	@echo
	@echo 'the same bytes as a spool: the length of each request, and how the spool ends'
	$(FRONT) --raw | $(SPOOL)

test:
	bash .ci/run

check:
	rt all check

bench: archive spool
	bash bench/calls.sh
	bash bench/spool.sh

install: all
	install -d $(TO)/include $(TO)/lib/pkgconfig $(TO)/bin
	install -m 644 $(HEADERS) $(TO)/include
	install -m 644 $(ARCHIVE) $(TO)/lib/liboyinkafubo.a
	sed -e 's|@PREFIX@|$(PREFIX)|' -e 's|@VERSION@|$(VERSION)|' include/oyinkafubo.pc.in >$(TO)/lib/pkgconfig/oyinkafubo.pc
	chmod 644 $(TO)/lib/pkgconfig/oyinkafubo.pc
	install -m 755 $(SPOOL) $(TO)/bin/oyinkafubo-spool
	install -m 755 $(FRONT) $(TO)/bin/oyinkafubo-front

uninstall:
	rm -f $(addprefix $(TO)/,$(HEADERS)) $(TO)/lib/liboyinkafubo.a $(TO)/lib/pkgconfig/oyinkafubo.pc
	rm -f $(TO)/bin/oyinkafubo-spool $(TO)/bin/oyinkafubo-front

version:
	@echo $(VERSION)

fmt:
	for crate in crates/*/; do (cd "$$crate" && rt fmt) || exit 1; done
	cargo fmt --manifest-path host/Cargo.toml

clean:
	rm -rf target host/target crates/*/out
