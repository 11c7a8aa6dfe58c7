# Tests, example and measurements around the static library.
#
#   make test-c          C and C++ tests, under valgrind
#   make test-isolation  one port cannot disturb another: ISOLATION_CALLS calls
#                        compared in two histories, without valgrind
#   make test-why        the tool why; each run under WHY_UNDER, if that is
#                        given
#   make test-replay     the tool replay, beside the model; under REPLAY_UNDER
#   make test-model      the model: self-check, then 2,000,000 calls compared,
#                        and recordings written, damaged and replayed
#   make test-install    make install, a program built with pkg-config's flags
#                        alone, make uninstall; staged too
#   make test-compilers  the headers and all bytes of each returned struct, in
#                        C99, C11, C++11 and C++17, gcc and clang, -O0 and -O3
#   make test-stack      the stack of each call, computed from the library's
#                        code, measured, and compared with the header
#   make test-rust-version  the model needs no Rust later than 1.63: by clippy
#                        and the text, or, with RUST_1_63=FOLDER, built by the
#                        cargo and rustc there
#   make soak            the model over SOAK_CALLS calls, with a new seed
#   make demo            the example firmware
#   make demo-mistakes   the example firmware on the C in place with each of
#                        document 01's five errors that look right: it must
#                        fail each time
#   make why             the tool why, on the example's own NAK
#   make replay          the tool replay, on the example's own recording
#   make speed           instructions per call, against inplace.c, and of a
#                        port's two engines
#
# LIBRARY names the static library; LDLIBS what else it needs.  For a trial
# without it:  make lib-stand-in && make test-c LIBRARY=$(STAND_IN)
# LIBRARY and TARGET have their defaults in ../Makefile, which includes this.

CC ?= cc
CXX ?= c++
GCC ?= gcc
GXX ?= g++
CLANG ?= clang
CLANGXX ?= clang++
CARGO ?= cargo
RUST_1_63 ?=
VALGRIND ?= valgrind -q --error-exitcode=1 --leak-check=full
STAND_IN := $(TARGET)/stand-in/libgrimholdi.a
ISOLATION_CALLS ?= 1000000
ISOLATION_SEED ?= 1
MODEL_CALLS ?= 2000000
MODEL_SEED ?= 1
SOAK_CALLS ?= 100000000
SOAK_SEED ?= $(shell date +%s)

TEST_CFLAGS := -std=c99 -O1 -g -Wall -Wextra -Werror -pedantic -Iinclude
TEST_CXXFLAGS := -std=c++11 -O1 -g -Wall -Wextra -Werror -pedantic -Iinclude
INCLUDED := $(wildcard include/*.h)
C_HEADERS := $(wildcard tests/c/*.h) $(INCLUDED)
C_TESTS := $(patsubst tests/c/%.c,$(TARGET)/c/%,$(wildcard tests/c/test_*.c))
CXX_TESTS := $(patsubst tests/c/%.cpp,$(TARGET)/c/%,$(wildcard tests/c/test_*.cpp))
WORDS_HEADERS := $(wildcard tools/words/*.h)
WORDS_SOURCES := $(wildcard tools/words/*.c)
WHY_HEADERS := $(wildcard tools/why/*.h) $(WORDS_HEADERS)
WHY_SOURCES := $(wildcard tools/why/*.c) $(WORDS_SOURCES)
WHY_UNDER ?=
REPLAY_HEADERS := $(wildcard tools/replay/*.h) $(WORDS_HEADERS)
REPLAY_SOURCES := $(wildcard tools/replay/*.c) $(WORDS_SOURCES)
REPLAY_UNDER ?=
FIRMWARE_HEADERS := $(wildcard examples/*.h)
FIRMWARE_SOURCES := $(patsubst %,examples/%.c,firmware calls log computers \
	takes take_scenes port_scenes)
MISTAKES := $(patsubst tests/mistakes/%.edit,%,$(wildcard tests/mistakes/*.edit))
NAK_AREA := $(TARGET)/nak.area
SESSION := $(TARGET)/session.rec
SESSION_ANSWERS := $(TARGET)/session.answers
# The five numbers of the example's hub.
SESSION_HUB := 4 3 50 100 0
MODEL := $(TARGET)/model/release/model

# Rewritten when LIBRARY names another file, so that programs are linked anew.
LINKED := $(TARGET)/linked-library

.PHONY: always lib-stand-in model test-c test-isolation test-model test-why \
	test-replay test-install test-compilers test-stack test-rust-version \
	soak demo demo-mistakes why replay speed

$(LINKED): always
	mkdir -p $(@D)
	echo $(LIBRARY) | cmp -s - $@ || echo $(LIBRARY) > $@

lib-stand-in: $(STAND_IN)

# The C in place under the library's own names.
$(TARGET)/stand-in/%.o: tests/inplace/%.c tests/inplace/inplace.h $(INCLUDED)
	mkdir -p $(@D)
	$(CC) -std=c99 -O2 -Wall -Wextra -Werror -pedantic -Iinclude \
		-DINPLACE_AS_LIBRARY -c $< -o $@

$(STAND_IN): $(patsubst tests/inplace/%.c,$(TARGET)/stand-in/%.o,$(wildcard \
		tests/inplace/*.c))
	rm -f $@
	$(AR) rcs $@ $^

$(C_TESTS): $(TARGET)/c/%: tests/c/%.c $(C_HEADERS) $(LIBRARY) $(LINKED)
	mkdir -p $(@D)
	$(CC) $(TEST_CFLAGS) $< $(TESTED_SOURCES) $(LIBRARY) $(LDLIBS) -o $@

# A test of the tool's sources links them beside itself.
AREA_VIEW := $(patsubst %,tools/%.c,why/area_view why/area_fault \
	why/transactions words/fault words/names words/text)
$(TARGET)/c/test_area_view: TESTED_SOURCES := $(AREA_VIEW)
$(TARGET)/c/test_area_view: $(AREA_VIEW) $(WHY_HEADERS)

# The C that stands in a section of the header's text, as it stands there.
HEADER_EXAMPLES := $(TARGET)/c/an_example.inc $(TARGET)/c/a_stored_area.inc
$(TARGET)/c/an_example.inc: SECTION := An example
$(TARGET)/c/a_stored_area.inc: SECTION := A stored area
$(HEADER_EXAMPLES): include/grimholdi.h
	mkdir -p $(@D)
	sed -n '/^ \* $(SECTION)$$/,/^ \* [A-Z]/s/^ \*     //p' $< > $@
$(TARGET)/c/test_example: TEST_CFLAGS += -I$(TARGET)/c
$(TARGET)/c/test_example: $(HEADER_EXAMPLES)

# Drawn calls name the bytes of an area as the tool does.
$(TARGET)/c/test_isolation: $(WHY_HEADERS)

$(CXX_TESTS): $(TARGET)/c/%: tests/c/%.cpp $(C_HEADERS) $(LIBRARY) $(LINKED)
	mkdir -p $(@D)
	$(CXX) $(TEST_CXXFLAGS) $< $(LIBRARY) $(LDLIBS) -o $@

test-c: $(C_TESTS) $(CXX_TESTS)
	set -e; for test in $^; do $(VALGRIND) $$test; done

test-isolation: $(TARGET)/c/test_isolation
	$< $(ISOLATION_CALLS) $(ISOLATION_SEED)

# The model's program; cargo knows whether it has to be built.
model: $(LIBRARY)
	GRIMHOLDI_LIBRARY=$(abspath $(LIBRARY)) $(CARGO) build --release --quiet \
		--locked --manifest-path tests/model/Cargo.toml \
		--target-dir $(TARGET)/model

test-model: model
	$(MODEL) --self-check
	$(MODEL) --calls $(MODEL_CALLS) --seed $(MODEL_SEED)

soak: model
	$(MODEL) --calls $(SOAK_CALLS) --seed $(SOAK_SEED)

test-install: $(LIBRARY) $(TARGET)/why $(TARGET)/replay
	python3 -B tests/build/install.py $(LIBRARY) $(TARGET) "$(CC)" "$(CXX)"

test-compilers: $(LIBRARY)
	LDLIBS="$(LDLIBS)" python3 -B tests/build/compilers.py $(LIBRARY) \
		$(TARGET)/compilers "$(GCC)" "$(GXX)" "$(CLANG)" "$(CLANGXX)"

test-stack: $(LIBRARY)
	LDLIBS="$(LDLIBS)" python3 -B tests/build/stack.py $(LIBRARY) \
		$(TARGET)/stack "$(CC)"

test-rust-version: $(LIBRARY)
	CARGO="$(CARGO)" python3 -B tests/build/rust_version.py $(LIBRARY) \
		$(TARGET)/rust-version $(RUST_1_63)

$(TARGET)/firmware: $(FIRMWARE_SOURCES) $(FIRMWARE_HEADERS) $(INCLUDED) \
		$(LIBRARY) $(LINKED)
	mkdir -p $(@D)
	$(CC) $(TEST_CFLAGS) $(FIRMWARE_SOURCES) $(LIBRARY) $(LDLIBS) -o $@

demo: $(TARGET)/firmware
	$(TARGET)/firmware

# The C in place with one mistake, and the example on it.
MISTAKEN := $(MISTAKES:%=$(TARGET)/mistakes/%)

$(MISTAKEN:%=%.c): $(TARGET)/mistakes/%.c: tests/mistakes/%.edit \
		tests/mistakes/edits.py tests/inplace/inplace.c
	mkdir -p $(@D)
	python3 -B tests/mistakes/edits.py $< tests/inplace > $@ \
		|| { rm -f $@; exit 1; }

$(MISTAKEN): %: %.c $(FIRMWARE_SOURCES) $(FIRMWARE_HEADERS) \
		$(wildcard tests/inplace/*) $(INCLUDED)
	$(CC) $(TEST_CFLAGS) -Itests/inplace -DINPLACE_AS_LIBRARY \
		$(FIRMWARE_SOURCES) $< tests/inplace/recording.c -o $@

$(TARGET)/mistakes/right: $(FIRMWARE_SOURCES) $(FIRMWARE_HEADERS) \
		$(INCLUDED) $(STAND_IN)
	mkdir -p $(@D)
	$(CC) $(TEST_CFLAGS) $(FIRMWARE_SOURCES) $(STAND_IN) -o $@

# That the example's checks are able to fail, on exactly the errors that
# document 01 names, each in the scene that is there for it.  It needs no
# library: what is tested is the example.
demo-mistakes: $(TARGET)/mistakes/right $(MISTAKEN)
	python3 -B tests/mistakes/noticed.py $(TARGET)/mistakes

$(TARGET)/why: $(WHY_SOURCES) $(WHY_HEADERS) $(INCLUDED) $(LIBRARY) $(LINKED)
	mkdir -p $(@D)
	$(CC) $(TEST_CFLAGS) $(WHY_SOURCES) $(LIBRARY) $(LDLIBS) -o $@

$(TARGET)/replay: $(REPLAY_SOURCES) $(REPLAY_HEADERS) $(INCLUDED) $(LIBRARY) \
		$(LINKED)
	mkdir -p $(@D)
	$(CC) $(TEST_CFLAGS) $(REPLAY_SOURCES) $(LIBRARY) $(LDLIBS) -o $@

# What the example writes: the area before the start-split that is refused, the
# recording of its session, and the answers that it got.
$(NAK_AREA): WRITTEN := --nak-area
$(SESSION): WRITTEN := --record
$(SESSION_ANSWERS): WRITTEN := --answers
$(NAK_AREA) $(SESSION) $(SESSION_ANSWERS): $(TARGET)/firmware
	$(TARGET)/firmware $(WRITTEN) $@ > /dev/null || { rm -f $@; exit 1; }

why: $(TARGET)/why $(NAK_AREA)
	$(TARGET)/why $(NAK_AREA) start-split 0 IN bulk full 0 5 3

test-why: $(TARGET)/why $(NAK_AREA)
	python3 -B tests/tools/test_why.py $(NAK_AREA) $(WHY_UNDER) $(TARGET)/why

replay: $(TARGET)/replay $(SESSION)
	$(TARGET)/replay $(SESSION) $(SESSION_HUB)

test-replay: $(TARGET)/replay $(SESSION) $(SESSION_ANSWERS) model
	python3 -B tests/tools/test_replay.py $(SESSION) $(SESSION_ANSWERS) \
		$(MODEL) $(REPLAY_UNDER) $(TARGET)/replay

# The program is proved and compiled by rt, which writes into crates/NAME/out/.
ENGINES := crates/port_engines/out/port_engines
$(ENGINES): crates.txt $(shell find crates/bools crates/port crates/chart \
		crates/port_engines -name out -prune -o \
		\( -name '*.rt' -o -name '*.antt' \) -print)
	cd crates/port_engines && rt run < stdin | cmp - stdout

speed: $(LIBRARY) $(ENGINES)
	CC="$(CC)" LDLIBS="$(LDLIBS)" tests/speed/speed.sh $(LIBRARY) $(TARGET)/speed
	tests/speed/engines.sh $(ENGINES) $(TARGET)/speed
