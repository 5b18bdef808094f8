# What a visitor types. All of it is done elsewhere: hosts/c/Makefile, .ci/run, tools/dist.
#   make demo      builds a table of two molecules and one of a molecule against an ion, reads and shows them
#   make test      the C host's own checks, in seconds once the library is there
#   make install   libraries, headers, pkg-config file, tool, man page and completion under PREFIX (/usr/local)
# and in the repository, which needs the Rattle kit:
#   make gate      every proof, program and test: .ci/run
#   make dist      target/dist/icotable-VERSION-x86_64.tar.gz, the release archive; GATE=LOG takes the verdicts of a run of the gate
PREFIX = /usr/local

all demo test install:
	@$(MAKE) -s -C hosts/c $@ PREFIX=$(PREFIX)

ifneq ($(wildcard crates.txt),)
gate:
	@bash .ci/run

dist:
	@tools/dist $(GATE)
endif

.PHONY: all demo test install gate dist
