# Installs the program, its manual page, its units for systemd, its completion and what stands before and beside it (a proxy, a tunnel),
# and takes them away again. Building and testing are the kit's: ./asp_state builds, `rt ci` proves and tests.
PREFIX ?= /usr/local
DESTDIR ?=
bin = $(DESTDIR)$(PREFIX)/bin
lib = $(DESTDIR)$(PREFIX)/lib/asp_state
share = $(DESTDIR)$(PREFIX)/share/asp_state
man = $(DESTDIR)$(PREFIX)/share/man/man1
completions = $(DESTDIR)$(PREFIX)/share/bash-completion/completions
units = $(DESTDIR)$(PREFIX)/lib/systemd/system
program = crates/asp_state/out/asp_state
templates = asp-state@.service asp-state-visit@.service asp-state-visit@.timer
fronts = haproxy.cfg stunnel-state.conf stunnel-web.conf

.PHONY: all install uninstall

all:
	./asp_state --build

install: all
	install -d $(bin) $(lib) $(share) $(man) $(completions) $(units)
	install -m 755 $(program) $(lib)/program
	install -m 644 VERSION $(lib)/VERSION
	install -m 755 asp_state $(bin)/asp_state
	install -m 644 packaging/asp_state.1 $(man)/asp_state.1
	install -m 644 packaging/asp_state.bash $(completions)/asp_state
	install -m 644 $(addprefix packaging/,$(fronts)) $(share)
	for unit in $(templates); do \
		sed 's|@BIN@|$(PREFIX)/bin|' "packaging/$$unit" >"$(units)/$$unit" && chmod 644 "$(units)/$$unit" || exit 1; \
	done
	sed 's|%i|42424|' "$(units)/asp-state@.service" >$(units)/asp-state.service
	chmod 644 $(units)/asp-state.service

uninstall:
	rm -f $(bin)/asp_state $(man)/asp_state.1 $(completions)/asp_state $(units)/asp-state.service
	rm -f $(addprefix $(units)/,$(templates))
	rm -rf $(lib) $(share)
