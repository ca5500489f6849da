# make try       a minute: builds axe without a proof, and finds a composition series with it; no program is left, since the kit
#                links none that isn't proved
# make demo      proves and builds axe, some 32 minutes on four processors, and runs its commands on examples/
# make test      everything that CI runs: proofs from nothing, the wrong bodies, the tests and the runs of the program
# make planted   tries the wrong bodies that the gate leaves out (`tests/planted NAME..`: those of some crates alone)
# make build     proves and builds crates/axe/out/axe; CPU=x86-64-v3 builds it for processors with AVX2
# make cases     the runs of the built program alone: cases, disks, transcripts of the documents, what is installed
# make bench     times the built program, beside GAP, M4RI, M4RIE, FLINT and FFLAS where those are installed: inverses and null spaces
#                (bench/inverses), products (bench/products), texts (bench/texts), submodules and quotients
#                (bench/modules), composition series (bench/chop, bench/small); and shows its peak memory (bench/memory)
# make install   puts the program into PREFIX/bin (PREFIX=/usr/local), man page, completions and the GAP package where such
#                files go, and what it was built from into PREFIX/share/doc/axe/BUILT
# make dist      packs the program with all of these, the pages and the examples into out/axe-VERSION-linux-x86-64.tar.gz,
#                for machines without the kit
PREFIX ?= /usr/local
# the processors that `make build` builds for, as `rt run --cpu` names them; none: every 64-bit one
CPU ?=
AXE = crates/axe/out/axe
# the example of `make try`, a module of two generators, and the command that chops it
EXAMPLE = m24two
SHOWN = chop $(EXAMPLE)

.PHONY: try build demo test planted cases bench install dist

try:
	@command -v rt >/dev/null || \
	  { echo "axe is built by 'rt' of the Rattle kit, which is not on the path: README.md says which kit"; exit 1; }
	@echo "axe $(SHOWN), built without a proof ('make demo' proves it), in about a minute:"
	@cd crates/axe && rt try $(foreach i,1 2,--data $(EXAMPLE).$(i)=$(abspath examples/mathieu/$(EXAMPLE).$(i))) -- $(SHOWN)

build:
	@CPU=$(CPU) tests/prove

demo: build
	@echo "Composition series of the modules of examples/mathieu:"
	@echo
	@AXE=$(abspath $(AXE)) examples/mathieu/demo
	@echo
	@echo "The other commands of axe on the files of examples/:"
	@echo
	@AXE=$(abspath $(AXE)) examples/demo
	@echo
	@echo "The walk of examples/a5:"
	@echo
	@AXE=$(abspath $(AXE)) examples/a5/demo

test:
	.ci/run

planted:
	tests/planted

cases: build
	tests/run
	tests/disk
	tests/changes
	tests/certificates
	tests/documents
	tests/installed
	tests/packed

bench: build
	-AXE=$(abspath $(AXE)) bench/inverses
	-AXE=$(abspath $(AXE)) bench/products
	-AXE=$(abspath $(AXE)) bench/texts
	-AXE=$(abspath $(AXE)) bench/modules
	-AXE=$(abspath $(AXE)) bench/chop
	-AXE=$(abspath $(AXE)) bench/small
	-AXE=$(abspath $(AXE)) bench/memory

install: build
	install -D -m 755 $(AXE) $(DESTDIR)$(PREFIX)/bin/axe
	install -d $(DESTDIR)$(PREFIX)/share/doc/axe
	share/built $(AXE) >$(DESTDIR)$(PREFIX)/share/doc/axe/BUILT
	install -d $(DESTDIR)$(PREFIX)/share/man/man1
	share/manual $(AXE) >$(DESTDIR)$(PREFIX)/share/man/man1/axe.1
	install -D -m 644 share/axe.bash $(DESTDIR)$(PREFIX)/share/bash-completion/completions/axe
	install -D -m 644 share/_axe $(DESTDIR)$(PREFIX)/share/zsh/site-functions/_axe
	install -d $(addprefix $(DESTDIR)$(PREFIX)/share/gap/pkg/axe/,lib tst doc)
	install -m 644 gap/*.g gap/README.md $(DESTDIR)$(PREFIX)/share/gap/pkg/axe
	install -m 644 gap/lib/* $(DESTDIR)$(PREFIX)/share/gap/pkg/axe/lib
	install -m 644 gap/tst/* $(DESTDIR)$(PREFIX)/share/gap/pkg/axe/tst
	install -m 644 docs/GAP.md $(DESTDIR)$(PREFIX)/share/gap/pkg/axe/doc

dist: build
	share/pack $(AXE) out
