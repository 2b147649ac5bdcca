# A bare make prints this list, which is made from the lines that begin with two number signs.
PREFIX ?= /usr/local

# This processor's own code: the library as the gate tests it on x86-64, on another processor what rt compiles for that one.
ifeq ($(shell uname -m),x86_64)
PROGRAMS = host/target/release
LIBRARY = target/staticlib/libcabi.a
else
PROGRAMS = target/native/cargo/release
LIBRARY = target/native/libcabi.a
endif

.PHONY: help tool install demo test host trials bench peers stack reads fuzz memory page mutants viewers

help:
	@sed -n 's/^## //p' Makefile

## make tool      the tool and the library, proved and built for this processor
tool:
	@sh host/quietly.sh target/tool.log 'Proving and compiling the library, building the tool (some minutes at first)' \
		sh host/own.sh true

## make install   the tool, library, header, man page and completion, below PREFIX (/usr/local)
install: tool
	sh host/install.sh $(PROGRAMS) $(LIBRARY) $(PREFIX)

## make demo      a tray from scan to audit, with the fault that this is for
demo: tool
	sh host/demo.sh $(PROGRAMS)

## make test      the gate: every proof, every must-fail edit, every program, then the host's tests
test:
	bash .ci/run

# The tool and its trials, over the proved library itself.
host:
	sh host/library.sh
	sh host/cargo.sh build --workspace

## make trials    the proved library and the tool against the second mesher, on random input
trials: host
	sh host/cargo.sh test --workspace

## make bench     the proved library beside a hand-written C mesher and C loops, and the audit of 10,000 sheets
bench:
	sh host/own.sh sh -c 'bench && sh host/audit-rate.sh'

## make peers     the proved build beside VTK and scikit-image, where those are installed
peers:
	sh host/peers.sh $(LIBRARY)

## make stack     how much stack each function of the library takes
stack:
	sh host/own.sh stack

## make reads     how often a build, a check and a search for pieces read samples, counted by valgrind
reads:
	command -v valgrind >/dev/null || { apt-get update -qq && apt-get install -y -qq valgrind; }
	sh host/own.sh sh host/reads.sh

## make page      an audit's page opened in a browser (Debian's chromium), as a picture
page: tool
	sh host/page.sh $(PROGRAMS)

## make viewers   STL files as another program reads them (Debian's admesh)
viewers: tool
	sh host/viewers.sh $(PROGRAMS)

## make fuzz      random and mutated input, for ten minutes
fuzz: host
	host/target/release/fuzz 10m

## make memory    the same under valgrind, 20,000 rounds
memory:
	command -v valgrind >/dev/null || { apt-get update -qq && apt-get install -y -qq valgrind; }
	sh host/own.sh valgrind -q --error-exitcode=9 fuzz 20000

## make mutants   250 single changes of the definitions; those that nothing refuses are listed
mutants:
	rt all check
	command -v python3 >/dev/null || { apt-get update -qq && apt-get install -y -qq python3; }
	python3 tools/mutants.py --most 250
