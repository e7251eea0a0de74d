# The commands of this repository, under short names. `make help` lists them.

# What the host tests need, by Debian's package names; libm's folder is the one that oracle/libm names.
PACKAGES = $(shell command -v python3 >/dev/null || echo python3) \
           $(shell command -v cargo >/dev/null || echo cargo) \
           $(shell test -f "$$(sed -n 's/^path = "\(.*\)"$$/\1/p' oracle/libm/Cargo.toml)" || echo librust-libm-dev) \
           $(shell command -v cc >/dev/null && command -v gcc >/dev/null || echo gcc libc6-dev) \
           $(shell command -v c++ >/dev/null || echo g++) \
           $(shell command -v pkg-config >/dev/null || echo pkg-config) \
           $(shell command -v groff >/dev/null || echo groff-base) \
           $(shell command -v sox >/dev/null || echo sox) \
           $(shell command -v sndfile-info >/dev/null || echo sndfile-programs)

# The desk is C over the library, compiled from the same sources for use, under sanitizers and in tests.
CC = gcc
C_FLAGS = -std=c11 -Wall -Wextra -Werror -pedantic -ffp-contract=off -D_XOPEN_SOURCE=700 -Iinclude -Idesk
SANITIZED = -g -O1 -fsanitize=address,undefined -fno-sanitize-recover=all
DESK_SOURCES = $(wildcard desk/*.c)
READERS = $(filter-out desk/main.c,$(DESK_SOURCES))
FUZZ = tests/desk/fuzz_readers.c tests/desk/fuzz_readers.h
DESK_NEEDS = desk/desk.h include/gavberin.h build/libgavberin.a
ROUNDS = 4000000
SECONDS = 60
SEED = 1
# libFuzzer is clang's. No test needs it, so that `make deps` leaves it out.
CLANG = clang

# The library's version is the header's, and the shared library's name carries it. Where `make install` puts files.
VERSION := $(shell sed -n 's/^\#define GAV_VERSION //p' include/gavberin.h)
SHARED = libgavberin.so.$(VERSION)
PREFIX = /usr/local
INSTALLED = $(DESTDIR)$(PREFIX)

.DEFAULT_GOAL = help
.DELETE_ON_ERROR:
.PHONY: always help check test ci judges judges-deps fmt lib desk man install demo fuzz bench deps vectors clean

help:
	@echo 'make check   prove every crate, over what earlier checks kept (rt all check)'
	@echo 'make test    run the host tests (tests/run); some run programs that rt ci left in crates/NAME/out'
	@echo 'make ci      run the gate: rt ci, then the host tests'
	@echo 'make judges  run what no gate does: ffmpeg, aplay, JACK and ten minutes of libFuzzer beside the desk and the library'
	@echo 'make fmt     lay out every .rt and .antt file (rt fmt in each crate)'
	@echo 'make lib     prove what C sees and build it (rt lib): build/libgavberin.a and build/libgavberin.so'
	@echo 'make desk    build the desk, build/desk, and the library that it needs'
	@echo 'make man     write the man page of the desk, build/desk.1, from what its verbs say of themselves'
	@echo 'make install put header, libraries, gavberin.pc, desk and its man page under PREFIX=$(PREFIX), below DESTDIR'
	@echo 'make demo    build both, render a tune, edit it five times and draw the chart, in build/demo/'
	@echo 'make fuzz    feed the readers of the desk with damaged input for long: ROUNDS=$(ROUNDS) SEED=$(SEED),'
	@echo '             then by libFuzzer for SECONDS=$(SECONDS)'
	@echo 'make bench   measure the library beside the original and C, on one core: BENCH="--seed 7", bench/run --help'
	@echo 'make deps    install what the host tests need and is missing here, with apt-get'
	@echo 'make vectors write the committed rows of the replay anew, from the original (oracle/)'
	@echo 'make clean   remove build/ and the out/ of each crate'

check:
	@rt all check --jobs "$$(nproc)"

test:
	@tests/run

ci:
	@bash .ci/run

judges:
	@tests/run --judges

judges-deps:
	@$(MAKE) --no-print-directory deps PACKAGES='ffmpeg alsa-utils jackd2 jack-capture libjack-jackd2-dev clang libclang-rt-dev'

fmt:
	@for crate in crates/*/; do (cd "$$crate" && rt fmt) || exit 1; done

lib: build/libgavberin.a build/libgavberin.so

# Made again where the code of a crate has changed since; `make lib` always asks rt, which proves what has changed.
build/proved.a: $(shell find crates/*/src -name '*.rt') tools/native-lib $(if $(filter lib,$(MAKECMDGOALS)),always)
	@tools/native-lib ffi_c $@

build/libgavberin.a: build/proved.a build/words.o
	@cp build/proved.a $@
	@$(AR) rs $@ build/words.o

build/words.o: library/words.c include/gavberin.h
	@mkdir -p build
	@$(CC) $(C_FLAGS) -O2 -fPIC -c -o $@ library/words.c

# Nothing but the calls of the header can be seen from outside. A copy, as `rt ci` refuses a link in the checkout.
build/libgavberin.so: build/libgavberin.a library/exports
	@$(CC) -shared -nostartfiles -Wl,-soname,$(SHARED) -Wl,--version-script=library/exports -Wl,--no-undefined \
		-o build/$(SHARED) -Wl,--whole-archive build/libgavberin.a -Wl,--no-whole-archive -lm
	@cp build/$(SHARED) $@

desk: build/desk

man: build/desk.1

build/desk.1: build/desk library/man
	@library/man build/desk $(VERSION) >$@

install: build/libgavberin.so build/desk build/desk.1
	@install -d "$(INSTALLED)/include" "$(INSTALLED)/lib/pkgconfig" "$(INSTALLED)/bin" "$(INSTALLED)/share/man/man1"
	@install -m 644 include/gavberin.h "$(INSTALLED)/include/"
	@install -m 644 build/libgavberin.a "$(INSTALLED)/lib/"
	@install -m 755 build/$(SHARED) "$(INSTALLED)/lib/"
	@ln -sf $(SHARED) "$(INSTALLED)/lib/libgavberin.so"
	@sed 's|@PREFIX@|$(PREFIX)|; s|@VERSION@|$(VERSION)|' library/gavberin.pc.in >"$(INSTALLED)/lib/pkgconfig/gavberin.pc"
	@chmod 644 "$(INSTALLED)/lib/pkgconfig/gavberin.pc"
	@install -m 755 build/desk "$(INSTALLED)/bin/"
	@install -m 644 build/desk.1 "$(INSTALLED)/share/man/man1/"

demo: build/desk
	@desk/demo

# SECONDS=0 leaves libFuzzer out.
fuzz: build/fuzz
	@build/fuzz $(ROUNDS) $(SEED)
	@[ "$(SECONDS)" = 0 ] || $(MAKE) --no-print-directory build/desk build/libfuzzer
	@[ "$(SECONDS)" = 0 ] || tests/desk/libfuzzer $(SECONDS) $(SEED)

bench: build/libgavberin.a
	@bench/run $(BENCH)

build/desk: $(DESK_SOURCES) $(DESK_NEEDS)
	@$(CC) $(C_FLAGS) -O2 -o $@ $(DESK_SOURCES) build/libgavberin.a -lm

# What the tests of the desk run beside it.
build/desk-sanitized: $(DESK_SOURCES) $(DESK_NEEDS)
	@$(CC) $(C_FLAGS) $(SANITIZED) -o $@ $(DESK_SOURCES) build/libgavberin.a -lm

build/leaks: $(DESK_SOURCES) tests/desk/leaks.c $(DESK_NEEDS)
	@$(CC) $(C_FLAGS) $(SANITIZED) -o $@ $(READERS) tests/desk/leaks.c build/libgavberin.a -lm

build/desk-wrong: $(DESK_SOURCES) tests/desk/wrong_rerender.c tests/settings.h $(DESK_NEEDS)
	@$(CC) $(C_FLAGS) -O2 -Wl,--wrap=gav_rerender -o $@ $(DESK_SOURCES) tests/desk/wrong_rerender.c build/libgavberin.a -lm

build/fuzz: $(READERS) $(FUZZ) tests/desk/fuzz.c $(DESK_NEEDS)
	@$(CC) $(C_FLAGS) $(SANITIZED) -o $@ $(READERS) tests/desk/fuzz_readers.c tests/desk/fuzz.c build/libgavberin.a -lm

build/libfuzzer: $(READERS) $(FUZZ) $(DESK_NEEDS)
	@echo 'int LLVMFuzzerTestOneInput(void) { return 0; }' | $(CLANG) -x c -fsanitize=fuzzer -o /dev/null - 2>/dev/null || \
	    { echo "make fuzz: no libFuzzer here: install Debian's packages clang and libclang-rt-dev, or leave it out by SECONDS=0"; exit 1; }
	@$(CLANG) $(C_FLAGS) $(SANITIZED) -fsanitize=fuzzer -o $@ $(READERS) tests/desk/fuzz_readers.c build/libgavberin.a -lm

build/samples: tests/desk/samples.c $(DESK_NEEDS)
	@$(CC) $(C_FLAGS) -O2 -o $@ tests/desk/samples.c build/libgavberin.a -lm

build/jack-host: tests/judges/jack_host.c $(DESK_NEEDS)
	@$(CC) $(C_FLAGS) -O2 -o $@ tests/judges/jack_host.c build/libgavberin.a -ljack -lm

build/failing.so: tests/desk/failing.c
	@mkdir -p build
	@$(CC) -std=c11 -Wall -Wextra -Werror -O2 -shared -fPIC -o $@ tests/desk/failing.c -ldl

deps:
	@if [ -z "$(strip $(PACKAGES))" ]; then echo 'make deps: nothing is missing'; exit 0; fi; \
	command -v apt-get >/dev/null || { echo 'make deps: no apt-get here; install by hand: $(strip $(PACKAGES))'; exit 1; }; \
	echo 'make deps: installing with apt-get: $(strip $(PACKAGES))'; \
	if [ "$$(id -u)" -eq 0 ]; then sudo=; else sudo=sudo; fi; \
	$$sudo apt-get update && $$sudo apt-get install -y --no-install-recommends $(strip $(PACKAGES))

vectors:
	@oracle/vectors

clean:
	@rm -rf build crates/*/out
