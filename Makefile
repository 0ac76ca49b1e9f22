# What one types here. `make test` is the whole gate.
PREFIX ?= /usr/local
BIN = $(DESTDIR)$(PREFIX)/bin
SHARE = $(DESTDIR)$(PREFIX)/share
PROGRAM = crates/rosie/out/rosie
COLUMNS_PROGRAM = crates/rosie_columns/out/rosie_columns
DOCUMENTS = docs/COMMAND.md docs/COLUMNS.md docs/LANGUAGE.md docs/TUTORIAL.md docs/RECIPES.md docs/MESSAGES.md docs/HINTS.md CHANGELOG.md SECURITY.md LICENSE docs/COMING-FROM.md docs/PACKAGES.md docs/SCALE.md
# The programs whose words Tab completes.
COMPLETED = rosie rosie-columns rosie-try rosie-play rosie-lsp
TOOLS = rosie-at rosie-try rosie-why rosie-parallel
# What the tools share. They look for it in ../share/rosie/tools, here and where they are installed.
MODULES = advice.tsv rosie_advice.py rosie_findings.py rosie_messages.py rosie_reasons.py rosie_rpl.py rosie_why.py
VIM = syntax/rpl.vim ftdetect/rpl.vim ftplugin/rpl.vim compiler/rosie.vim
# Emacs finds a package in the folder of this name at its start, below /usr and /usr/local.
EMACS = emacs/site-lisp/elpa/rpl-mode-1.0

.PHONY: build lint check try test compare bench install uninstall dist clean

# Proves the crates side by side and builds the two programs, where a source is newer than one. Stopped, it goes on from there at the next call.
build:
	tools/build

# What reads the sources alone: the rules of style, the words of the documents, and shellcheck and pyflakes where they are installed.
lint:
	tests/run_lint

# Between commits: proves the crates that changed and those above them, over what earlier checks kept; no edits, no tests.
check:
	rt all check

# A look at the program without any proof: make try WORDS="match '\"ab\"'" INPUT=FILE. What it answers is unproved.
WORDS ?= match '"ab"'
INPUT ?= /dev/null
try:
	cd crates/rosie && rt try -- $(WORDS) < $(abspath $(INPUT))

# The proofs, the must-fail edits, the unit tests and the stored run, then the built program as a real process, and the manual.
test:
	tests/run_lint
	tests/run_examples
	tests/run_proofs
	tests/run_build
	tools/build
	tests/run_launcher
	tests/run_cases
	tests/run_expansions
	tests/run_tables
	tests/run_opened
	tests/run_costs
	tests/run_packages
	tests/run_documents
	tests/run_messages
	tests/run_regular
	tests/run_grok
	tests/run_tools
	tests/run_completions
	tests/run_columns
	tests/run_parallel
	tests/run_engines
	tests/run_try
	tests/run_editors
	tests/run_python
	tests/run_install
	tests/run_dist
	tests/compare/run --where-installed 1-300
	tests/compare/planted --where-installed 1-300
	tests/compare/columns 1-300

# The built program beside LPeg, on made-up patterns: make compare SEEDS=1-100000. It needs lua5.4 and LPeg for it (lua-lpeg).
# Then beside grep, jq and awk.
SEEDS ?= 1-1000
compare: build
	tests/compare/run $(SEEDS)
	tests/compare/planted 1-300
	tests/compare/others

# Measures the built program beside LPeg, grep, rg and jq, where they are installed, and ends with a table for docs/SPEED.md.
bench: build
	bench/run
	bench/columns

# The program, the tools beside it, the man pages, the documents for users, the examples, what editors colour RPL by, and completions for three shells.
install: build
	install -d $(BIN) $(SHARE)/man/man1 $(SHARE)/man/man7 $(SHARE)/doc/rosie $(SHARE)/rosie/examples/fixtures \
		$(SHARE)/bash-completion/completions \
		$(SHARE)/zsh/site-functions $(SHARE)/fish/vendor_completions.d
	install -m 755 $(PROGRAM) $(BIN)/rosie
	install -m 755 $(COLUMNS_PROGRAM) $(BIN)/rosie-columns
	install -m 755 $(TOOLS:%=bin/%) $(BIN)
	tools/manual_page > $(SHARE)/man/man1/rosie.1
	tools/manual_page rosie-columns > $(SHARE)/man/man1/rosie-columns.1
	tools/manual_page rosie-language > $(SHARE)/man/man7/rosie-language.7
	install -m 644 $(TOOLS:%=share/man/man1/%.1) $(SHARE)/man/man1
	install -d $(SHARE)/rosie/tools
	install -m 644 $(MODULES:%=share/rosie/tools/%) $(SHARE)/rosie/tools
	install -m 644 share/rosie/rosie.sh share/rosie/rosie.fish $(SHARE)/rosie
	install -m 644 $(DOCUMENTS) $(SHARE)/doc/rosie
	install -d $(SHARE)/doc/rosie/packages
	install -m 644 docs/packages/*.md $(SHARE)/doc/rosie/packages
	install -m 644 examples/README.md examples/*.rpl examples/*.log $(SHARE)/rosie/examples
	install -m 644 examples/fixtures/* $(SHARE)/rosie/examples/fixtures
	for v in vim/vimfiles nvim/site; do for f in $(VIM); do \
		install -d $(SHARE)/$$v/$$(dirname $$f) && install -m 644 editors/vim/$$f $(SHARE)/$$v/$$f || exit 1; done; done
	install -d $(SHARE)/$(EMACS) $(SHARE)/rosie/editors
	install -m 644 editors/emacs/*.el $(SHARE)/$(EMACS)
	install -m 644 editors/rpl.tmLanguage.json $(SHARE)/rosie/editors
	install -d $(SHARE)/rosie/editors/vscode
	install -m 644 editors/vscode/* $(SHARE)/rosie/editors/vscode
	for d in $$(cd python && find rosie -type d ! -name __pycache__); do \
		install -d $(SHARE)/rosie/python/$$d && install -m 644 $$(find python/$$d -maxdepth 1 -type f) $(SHARE)/rosie/python/$$d || exit 1; done
	install -m 644 python/README.md $(SHARE)/rosie/python
	for p in $(COMPLETED); do \
		install -m 644 completions/$$p.bash $(SHARE)/bash-completion/completions/$$p && \
		install -m 644 completions/_$$p $(SHARE)/zsh/site-functions/_$$p && \
		install -m 644 completions/$$p.fish $(SHARE)/fish/vendor_completions.d/$$p.fish || exit 1; done
	install -m 755 python/bin/rosie-play python/bin/rosie-lsp $(BIN)
	install -m 644 python/man/rosie-play.1 python/man/rosie-lsp.1 $(SHARE)/man/man1
	@test -n "$(DESTDIR)" || tools/editor_places $(SHARE)

uninstall:
	rm -f $(BIN)/rosie-play $(BIN)/rosie-lsp $(SHARE)/man/man1/rosie-play.1 $(SHARE)/man/man1/rosie-lsp.1
	rm -f $(BIN)/rosie $(BIN)/rosie-columns $(TOOLS:%=$(BIN)/%) $(SHARE)/man/man1/rosie.1 $(SHARE)/man/man1/rosie-columns.1 \
		$(TOOLS:%=$(SHARE)/man/man1/%.1)
	rm -f $(SHARE)/man/man7/rosie-language.7
	for p in $(COMPLETED); do rm -f $(SHARE)/bash-completion/completions/$$p \
		$(SHARE)/zsh/site-functions/_$$p $(SHARE)/fish/vendor_completions.d/$$p.fish; done
	rm -f $(VIM:%=$(SHARE)/vim/vimfiles/%) $(VIM:%=$(SHARE)/nvim/site/%)
	rm -rf $(SHARE)/rosie $(SHARE)/doc/rosie $(SHARE)/$(EMACS)

# What is installed, packed for machines without Rattle: a folder, a .tar.gz, a Debian package where there is dpkg-deb, and SHA256SUMS,
# all in dist/.
dist: build
	tools/dist

clean:
	rm -rf crates/*/out tests/.work .build dist
