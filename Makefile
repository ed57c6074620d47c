# What people type. Each target only calls what is there; `rt` proves what it makes.
#
#   make            the programs fill and operate, and the archive for C
#   make demo       the main job, in words
#   make test       the gate: everything proved from nothing, every test
#   make install    programs, show.py, header, archive and manual pages under PREFIX, /usr/local if it is not told

PREFIX ?= /usr/local
programs := target/bin/fill target/bin/operate
archive := target/staticlib/libcrush_place.a
sources := crates.txt $(shell find crates/*/src crates/*/specs crates/*/proofs -type f)

all: $(programs) $(archive)

$(programs) &: $(sources)
	packaging/programs
	@touch $(programs)

$(archive): $(sources)
	packaging/archive
	@touch $(archive)

demo: $(programs)
	@examples/demo

test:
	bash .ci/run

install: all
	packaging/install $(PREFIX)

.PHONY: all demo test install
# `rt` shares its work among the processors by itself
.NOTPARALLEL:
