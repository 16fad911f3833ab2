# make            proves what the programs stand on, a line for each crate, and builds them into bin/; bin/PROVED has a
#                 record of each: which bytes, of which sources, by which toolchain; bin/sbom.cdx.json what they link
# make proof      says of each program in bin/ whether it is what was proved
# make quick      builds what is installed without proofs, in some minutes: `mortarleek --version` then says NOT proved
# make demo       shows the agent at work with OpenSSH's tools, built without proofs where it isn't proved yet
# make check      proves and tests everything: the gate, .ci/run
# make nightly    what takes hours: .ci/nightly
# make bench      measures, beside other programs of the same machine
# make helper     builds mortarleek-helper, a second helper that signs, which isn't proved, with the packages that it wants
# make install    copies what was built to $(DESTDIR)$(PREFIX), with manuals, completions and a systemd unit; asks first
#                 where programs are not what was proved, or wants UNPROVED=yes
# make uninstall  removes what that copied
# make deb        builds a Debian package of it, in bin/; wants UNPROVED=yes where programs are not what was proved
# make release    what others get of a version, in a folder of bin/release: tarball, package, sources, sums, PROVED; of
#                 what the gate proved alone
# make check-release FOLDER=..  whether a folder is that
# make picture    draws the crates anew: docs/layers.svg and docs/crates.svg (needs graphviz)

RT ?= rt
PREFIX ?= /usr/local
# Not those that answer a table: the gate runs them.
PROGRAMS := $(filter-out %_table,$(patsubst crates/%/src/main.rt,%,$(wildcard crates/*/src/main.rt)))
INSTALLED := agent_prog
# Those that `make quick` built and nothing has replaced since: `make install` doesn't prove them.
QUICK := $(shell cat bin/unproved 2> /dev/null)
# `yes` takes programs that are not proved without a question.
UNPROVED ?=
export UNPROVED
SOURCES := crates.txt $(shell find crates -name out -prune -o \( -name '*.rt' -o -name '*.antt' \) -print)

.PHONY: all programs proof quick toolchain proofs version bill helper demo check nightly bench install uninstall deb release \
    check-release picture clean
# scripts/prove does side by side what can be done so.
.NOTPARALLEL:

all: programs version bill

# One run of scripts/prove for all of them: it reads all sources, which takes seconds.
programs: toolchain
	@RT='$(RT)' scripts/prove --into-bin $(PROGRAMS)

# Ends with an error where one isn't.
proof:
	@front/proof_of $(wildcard $(PROGRAMS:%=bin/%))

quick: toolchain
	@RT='$(RT)' scripts/quick $(filter $(PROGRAMS),$(INSTALLED) $(HELPERS))
	@RT='$(RT)' scripts/version > bin/version
	@cat bin/version
	@front/proof_of $(LAID:%=bin/%) || :

toolchain:
	@RT='$(RT)' scripts/toolchain

proofs: toolchain
	@RT='$(RT)' scripts/prove

$(PROGRAMS:%=bin/%): bin/%: $(SOURCES)
	@RT='$(RT)' scripts/toolchain
	@RT='$(RT)' scripts/prove --into-bin $*

# What `mortarleek --version` says of what is in bin/.
version:
	@mkdir -p bin
	@RT='$(RT)' scripts/version > bin/version

# What was proved isn't lost where this can't be told, and none stays then that tells of other programs.
bill:
	@RT='$(RT)' scripts/sbom bin > bin/sbom.cdx.json || { rm -f bin/sbom.cdx.json; echo 'no bin/sbom.cdx.json, then'; }

helper:
	@tests/packages.sh make @helper
	@helper/build

demo:
	@RT='$(RT)' scripts/demo

check: toolchain
	@tests/packages.sh check @check
	@RT='$(RT)' .ci/run

nightly: toolchain
	@tests/packages.sh nightly @nightly
	@RT='$(RT)' .ci/nightly

bench: $(PROGRAMS:%=bin/%)
	bench/run

# A person types `mortarleek`; the programs that it starts stand in a folder of their own. Agent and helpers can be run
# and not be read: their user's other programs can't trace them then. Where a user installs, that user is their owner,
# and must not read them either.
MODE := $(if $(DESTDIR),711,$(shell [ "$$(id -u)" = 0 ] && echo 711 || echo 111))
BIN := $(DESTDIR)$(PREFIX)/bin
LIBEXEC := $(DESTDIR)$(PREFIX)/libexec/mortarleek
SHARE := $(DESTDIR)$(PREFIX)/share
# A user's manager looks for units there. What is installed in the own home has a unit of its own.
OWN := $(if $(DESTDIR),,$(filter $(HOME)/%,$(PREFIX)) $(filter-out 0,$(shell id -u)))
UNITS := $(if $(strip $(OWN)),$(or $(XDG_DATA_HOME),$(HOME)/.local/share)/systemd/user,$(DESTDIR)$(PREFIX)/lib/systemd/user)
UNIT := contrib/systemd/mortarleek-agent$(if $(strip $(OWN)),.own).service
COMPLETIONS := $(SHARE)/bash-completion/completions $(SHARE)/zsh/site-functions $(SHARE)/fish/vendor_completions.d
HELPERS := mortarleek_signer mortarleek-helper standin_helper confirm_relay add_tool terms_relay filter_proxy audit_prog log_prog
SCRIPTS := $(notdir $(wildcard front/mortarleek front/mortarleek-*))
# What these start and source beside the programs.
PARTS := agent_guard front_end.sh proof_of version
# Of the programs that are installed those that can be proved: mortarleek-helper is another's second reading.
LAID = $(filter-out mortarleek-helper,$(INSTALLED) $(notdir $(wildcard $(HELPERS:%=bin/%))))
# A page that serves for several names.
PAGES := mortarleek-serve:agent_prog mortarleek-replay:agent_prog mortarleek-drill:agent_prog mortarleek-audit:audit_prog
page = $(firstword $(subst :, ,$(1)))

install: $(patsubst %,bin/%,$(filter-out $(QUICK),$(INSTALLED)))
	@scripts/take-unproved install $(LAID:%=bin/%)
	install -d $(BIN) $(LIBEXEC) $(SHARE)/mortarleek $(SHARE)/man/man1 $(SHARE)/man/man8 $(COMPLETIONS) $(UNITS)
	$(if $(INSTALLED),install -m $(MODE) $(INSTALLED:%=bin/%) $(LIBEXEC))
	install -m 755 $(SCRIPTS:%=front/%) $(BIN)
	install -m 755 front/agent_guard front/proof_of $(LIBEXEC)
	install -m 644 front/front_end.sh $(LIBEXEC)
	[ -f bin/version ] || RT='$(RT)' scripts/version > bin/version
	install -m 644 bin/version $(LIBEXEC)
	for name in $(HELPERS); do \
	    if [ -x bin/$$name ]; then install -m $(MODE) bin/$$name $(LIBEXEC) || exit 1; fi; \
	done
	scripts/lay-records $(SHARE)/mortarleek $(LIBEXEC) $(if $(DESTDIR),packed,installed) $(LAID)
	install -m 644 man/*.1 $(SHARE)/man/man1
	install -m 644 man/*.8 $(SHARE)/man/man8
	$(foreach name,$(PAGES),ln -sf $(lastword $(subst :, ,$(name))).1 $(SHARE)/man/man1/$(call page,$(name)).1 && ):
	for name in $(SCRIPTS); do \
	    install -m 644 contrib/completions/mortarleek.bash $(SHARE)/bash-completion/completions/$$name && \
	    install -m 644 contrib/completions/mortarleek.fish $(SHARE)/fish/vendor_completions.d/$$name.fish || exit 1; \
	done
	install -m 644 contrib/completions/_mortarleek $(SHARE)/zsh/site-functions
	sed 's,/usr/local/bin,$(PREFIX)/bin,' $(UNIT) > $(UNITS)/mortarleek-agent.service
	chmod 644 $(UNITS)/mortarleek-agent.service
	@front/proof_of $(LAID:%=bin/%) | sed -n '/: proved: /!p' >&2
	@$(if $(DESTDIR),:,echo 'installed below $(PREFIX). An agent that runs goes on, and starts none of the programs that were replaced;' && \
	    echo 'eval "$$(mortarleek agent --restart)" starts one of these in its place, without its keys.')

uninstall:
	@if [ -z '$(DESTDIR)' ] && [ -e $(LIBEXEC)/agent_prog ]; then \
	    number=$$($(BIN)/mortarleek status 2> /dev/null < /dev/null | sed -n 's/^agent: mortarleek .*, number //p'); \
	    if [ -n "$$number" ] && kill "$$number" 2> /dev/null; then echo "The agent of number $$number has ended, with its keys."; fi; \
	    echo 'Another agent that runs goes on with its keys: kill "$$SSH_AGENT_PID", or systemctl --user disable --now mortarleek-agent, ends it. A line of ~/.profile that mortarleek setup wrote does nothing from now on.'; \
	fi
	rm -f $(SCRIPTS:%=$(BIN)/%) $(INSTALLED:%=$(LIBEXEC)/%) $(HELPERS:%=$(LIBEXEC)/%) $(PARTS:%=$(LIBEXEC)/%)
	rm -f $(patsubst man/%,$(SHARE)/man/man1/%,$(wildcard man/*.1))
	rm -f $(patsubst man/%,$(SHARE)/man/man8/%,$(wildcard man/*.8))
	rm -f $(foreach name,$(PAGES),$(SHARE)/man/man1/$(call page,$(name)).1)
	rm -f $(SCRIPTS:%=$(SHARE)/bash-completion/completions/%)
	rm -f $(SCRIPTS:%=$(SHARE)/fish/vendor_completions.d/%.fish) $(SHARE)/zsh/site-functions/_mortarleek
	rm -f $(UNITS)/mortarleek-agent.service $(SHARE)/mortarleek/PROVED $(SHARE)/mortarleek/unproved $(SHARE)/mortarleek/NOTICES
	@[ ! -d $(SHARE)/mortarleek ] || rmdir --ignore-fail-on-non-empty $(SHARE)/mortarleek
	@if [ -d $(LIBEXEC) ] && ! rmdir $(LIBEXEC) 2> /dev/null; then \
	    echo 'left in $(LIBEXEC), since make install puts no such files there:' && ls -Aq $(LIBEXEC); \
	fi

# Says of which version, commit and toolchain the package is, and what of it is proved.
deb: $(patsubst %,bin/%,$(filter-out $(QUICK),$(INSTALLED))) version
	@scripts/take-unproved deb $(LAID:%=bin/%)
	dpkg-checkbuilddeps
	UNPROVED=yes debian/rules binary
	debian/rules clean
	@cat bin/version
	@front/proof_of $(LAID:%=bin/%) || :

release:
	@RT='$(RT)' scripts/release $(PREFIX)

check-release:
	@scripts/release --check '$(FOLDER)'

picture:
	scripts/crates-dot --layers > docs/layers.dot
	scripts/crates-dot > docs/crates.dot
	dot -Tsvg -o docs/layers.svg docs/layers.dot
	dot -Tsvg -o docs/crates.svg docs/crates.dot

clean:
	rm -rf bin crates/*/out helper/target
