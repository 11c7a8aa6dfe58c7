# The front door. `make test` is the gate, which leaves the library that it tested; `make check` is the quick loop, which proves what changed
# and runs the programs; `make lib` proves what the library rests on, unless that is proved already, and writes it. The targets of
# tests/tests.mk (test-c, test-install, demo, why, speed, ..) link against it; demo-mistakes needs none.

# TARGET is where all is built, LIBRARY the library that is linked and installed: the one made here, unless another is named.
TARGET ?= target
PROVED := $(TARGET)/libgrimholdi.a
LIBRARY ?= $(PROVED)
PREFIX ?= /usr/local

.DEFAULT_GOAL := test
.PHONY: test check check-texts update-texts port-chart lib install uninstall

include tests/tests.mk

test:
	.ci/run

check: check-texts
	rt all test

# Without a proof: the expected table of the port is the one that a model of its own writes, from the rules as document 01, corrected by C-12,
# words them, and so are its chart and the chart's constant, which docs/PORTS.svg and docs/PORTS.md show; the claims that
# docs/PROMISES.md names are those that functions ensure; docs/READING.md names every specification with its lines;
# docs/ARCHITECTURE.svg shows the crates as they are; the constants of the headers are the numbers of the specs.
check-texts:
	python3 tests/port_table.py --self-test
	python3 tests/port_table.py | cmp - crates/port_table/stdout
	python3 tests/port_chart.py --self-test
	python3 tests/port_chart.py | cmp - crates/port_chart/stdout
	python3 tests/port_chart.py --check crates/chart/src/table.rt
	python3 tests/port_chart.py --sum | cmp - crates/port_engines/stdout
	python3 tests/ports_picture.py --check
	python3 tests/ports_picture.py --self-test
	python3 tests/pins.py
	python3 tests/pins.py --self-test
	python3 tests/reading.py
	python3 tests/reading.py --self-test
	python3 tests/architecture.py --check
	python3 tests/architecture.py --self-test
	python3 tests/constants.py
	python3 tests/constants.py --self-test

# Writes anew what is made from the sources: the lines in docs/READING.md, the picture of the crates, the picture and the chart of a port.
update-texts:
	python3 tests/reading.py --update
	python3 tests/architecture.py
	python3 tests/ports_picture.py --update

# The rules of a port as a chart, which docs/PORTS.md explains: what the program `port_chart` prints; the gate holds it to this file.
port-chart:
	@cat crates/port_chart/stdout

lib: $(LIBRARY)

# Four objects: the calls, what explains them, what writes a recording and what replays it. A firmware links those that it uses.
OBJECTS := grimholdi_c grimholdi_why grimholdi_block grimholdi_replay
TAKEN := $(TARGET)/objects

# rt writes into crates/NAME/out/, wherever TARGET is; the objects and the archive go to TARGET.
$(PROVED): crates.txt $(shell find crates -name out -prune -o \( -name '*.rt' -o -name '*.antt' \) -print)
	set -e; for object in $(OBJECTS); do (cd crates/$$object && rt lib); done
	rm -rf $(TAKEN)
	mkdir -p $(TAKEN)
	set -e; cd $(TAKEN); for object in $(OBJECTS); do $(AR) x $(CURDIR)/crates/$$object/out/lib$$object.a; done
	rm -f $@
	$(AR) rcs $@ $(OBJECTS:%=$(TAKEN)/%.o)

# The version stands in the header alone.
VERSION = $(shell awk '$$1 ~ /define$$/ && $$2 ~ /^GRIMHOLDI_VERSION_(MAJOR|MINOR|PATCH)$$/ { printf "%s%s", dot, $$3; dot = "." }' include/grimholdi.h)

# What is installed, below PREFIX. The pkg-config file names PREFIX, so that it has to be a whole path; DESTDIR is put before it, to stage a package.
INSTALLED := bin/grimholdi-why bin/grimholdi-replay lib/libgrimholdi.a lib/pkgconfig/grimholdi.pc $(INCLUDED)
INTO = $(if $(filter /%,$(PREFIX)),,$(error PREFIX is '$(PREFIX)' and has to begin with /))$(DESTDIR)$(PREFIX)

install: $(LIBRARY) $(TARGET)/why $(TARGET)/replay
	install -d $(sort $(dir $(INSTALLED:%=$(INTO)/%)))
	install -m 755 $(TARGET)/why $(INTO)/bin/grimholdi-why
	install -m 755 $(TARGET)/replay $(INTO)/bin/grimholdi-replay
	install -m 644 $(LIBRARY) $(INTO)/lib/libgrimholdi.a
	install -m 644 $(INCLUDED) $(INTO)/include
	sed -e 's|@PREFIX@|$(PREFIX)|' -e 's|@VERSION@|$(VERSION)|' grimholdi.pc.in > $(INTO)/lib/pkgconfig/grimholdi.pc
	chmod 644 $(INTO)/lib/pkgconfig/grimholdi.pc

# Removes these files and no folder: that one was there before can't be told, and those of /usr/local are the system's.
uninstall:
	rm -f $(INSTALLED:%=$(INTO)/%)
