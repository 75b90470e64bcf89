# README.md says what try, build and install are for, CONTRIBUTING.md the others.

.PHONY: build try check test hooks edits refusals peers trials wire docs docs-check dist install uninstall

# proves the program and every crate that it stands on, side by side, has it do the sample job of one byte, and leaves it at
# ./norprog
build:
	@rm -f norprog
	@tools/build
	@tools/stamp norprog
	@echo "proved and built: ./norprog"

# proves each crate that changed and those above it, side by side, over the work that earlier checks kept; no test, edit or program
# is run, so it isn't the gate
check:
	rt all check --jobs $$(nproc)

# the merge gate: that the documents say what is so and name what is there; then every proof, must-fail edit and test, from nothing,
# and the rows of tests/ by the program that was built
test:
	@tools/architecture
	@tools/headline
	@tools/definitions
	@tools/flow
	@tools/links
	@tools/said-twice
	@tools/sentences
	@tools/version
	@tools/widths
	rt ci
	@tools/rows

# has git run tools/hooks/pre-commit before each commit in this clone
hooks:
	git config core.hooksPath tools/hooks

# tries every must-fail edit, also those that the gate doesn't: make edits, or make edits CRATES="nor_hex nor_sfdp"
edits:
	tools/try-edits $(CRATES)

# refuses each growth of memory of small jobs in turn, which the gate can't; it proves nothing
refusals:
	tools/refused-growths

# norprog beside flashrom and sigrok-cli, over the device of tools/serprog-device, and then as wire has it; norprog on parts of QEMU; it
# proves nothing, and says what it needs
peers:
	@tools/peers
	@tools/parts
	@tools/wire

# random scripts and sheets, and what norprog makes of them, the same each time; it proves nothing
trials:
	tools/witnesses 10000
	tools/inverse 10000
	tools/sheet-inverse 10000

# norprog and flashrom on a programmer of which a round trip takes 1 ms; it proves nothing
wire:
	@tools/wire

# the program unproved on a job that matters: a chip by its SFDP bytes, of which one region is programmed; it holds bits that
# must rise, so a sector is erased, and what else the sector holds is restored
try:
	@echo "unproved: this runs norprog as it stands, and proves nothing; make build proves it"
	@dir=$$(mktemp -d) && cd crates/norprog_cli && rt try -- build --sfdp data/sfdp.bin --layout data/chip.layout \
		--hex data/config.hex --content data/held.bin --verify --out $$dir/config.script config && cut -c 1-120 $$dir/config.script; \
	status=$$?; rm -rf "$$dir"; exit $$status

# runs each command of README.md and docs/GUIDE.md by the program that was built, and compares what it prints
docs-check:
	@tools/docs-check

# makes docs/DEFINITIONS.md, every definition of specs/ in a sentence; git ignores it
docs:
	@tools/definitions --write

# packs the program that was built, with what install installs, NOTICE and guide; the same bytes each time on one commit
dist:
	@tools/dist

PREFIX = /usr/local
man = $(DESTDIR)$(PREFIX)/share/man/man1/norprog.1
bash = $(DESTDIR)$(PREFIX)/share/bash-completion/completions/norprog
zsh = $(DESTDIR)$(PREFIX)/share/zsh/site-functions/_norprog
fish = $(DESTDIR)$(PREFIX)/share/fish/vendor_completions.d/norprog.fish
bin = $(DESTDIR)$(PREFIX)/bin
share = $(DESTDIR)$(PREFIX)/share/norprog

# puts the program that was built, norprog-tty, the man page, the completions for bash, zsh and fish and the sheets where PREFIX says, below
# DESTDIR
install:
	@test -x norprog || { echo "first: make build" >&2; exit 1; }
	@dir=$$(mktemp -d) && tools/manual > $$dir/man && \
	tools/completion bash > $$dir/bash && tools/completion zsh > $$dir/zsh && tools/completion fish > $$dir/fish && \
	install -D norprog $(bin)/norprog && install -D tools/norprog-tty $(bin)/norprog-tty && \
	install -D -m 644 $$dir/man $(man) && install -D -m 644 $$dir/bash $(bash) && \
	install -D -m 644 $$dir/zsh $(zsh) && install -D -m 644 $$dir/fish $(fish) && \
	install -d $(share)/sheets && install -m 644 sheets/* $(share)/sheets; \
	status=$$?; rm -rf "$$dir"; exit $$status

uninstall:
	rm -f $(bin)/norprog $(bin)/norprog-tty $(man) $(bash) $(zsh) $(fish) $(addprefix $(share)/,$(wildcard sheets/*))
	test ! -d $(share) || rmdir --ignore-fail-on-non-empty $(share)/sheets $(share)
