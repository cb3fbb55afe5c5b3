# make help lists the targets.
PREFIX ?= /usr/local
DESTDIR ?=
# Where make deb puts the package, and where zsh looks for completions below PREFIX. Names of the environment do not change these.
DEB_FOLDER = out
ZSH_FOLDER = share/zsh/site-functions
# The oldest processors that the program is built for: x86-64, x86-64-v2 or x86-64-v3.
CPU ?= x86-64-v2
JOBS ?= $(shell nproc)
# make prove tries about one in SHARE of the wrong bodies. SHARE=1 tries all, as before a release.
SHARE ?= 3
PROGRAM = crates/scramotp/out/scramotp
# What is only compiled, and not proved.
UNPROVED = out/unproved/scramotp
# Where make time says what each part took.
time: TIMES = out/times.csv
# The kit with which all was last proved, as rt version prints it; README.md and docs/PROMISES.md name it too.
KIT = rattle-kit-13f logic dac8208d650f15bf
# What the program stands on.
LIBRARIES = mac_core otp_core scram_text scram_ends book_format account_book book_keeper book_file command_line command_words \
	log_grammar sasl_log log_report sasl_desk command_io account_commands commands
# What is installed beside it.
TOOLS = $(addprefix tools/,check-code drop-tables edit-book find-key from-verifier list-accounts list-unlike-decoys log-report \
	serve-hall set-password to-verifier)
# What serves logins, and the package of Python on which it stands.
HOSTS = $(addprefix hosts/,check-login scramotp-host serve-dovecot-auth)
# The documents that are installed, with the folder docs as it is here, so that their links lead to each other.
DOCUMENTS = README.md CHANGELOG.md CONTRIBUTING.md LICENSE HANDLES
# What the program is built from.
SOURCES = crates.txt HANDLES $(shell find $(wildcard $(addprefix crates/,$(LIBRARIES) scramotp)) \( -name out -prune \) -o \
	\( -name '*.rt' -o -name '*.antt' \) -print)
# Succeeds where the program is built and newer than its sources.
IS_FRESH = test -x $(PROGRAM) && test -z "$$(find $(SOURCES) -newer $(PROGRAM))"
# The tests of hosts, and of doors with real servers.
DOORS = host.py serve_hall.py dovecot_auth.py doors.py pam.py systemd.py
# Where make libscramotp leaves the library for C, and make plugin the plug-in for Cyrus SASL.
CLIB_FOLDER = clib/out
PLUGIN_FOLDER = plugins/cyrus/out
# The example of RFC 5802, section 5; its password is pencil.
EXAMPLE = keys --mechanism SCRAM-SHA-1 --salt 4125c247e43ab1e93c6dff76 --count 4096
# The processors that make last built the program for. rt ci builds it for the default ones, and make prove then removes this note.
BUILT_FOR := $(shell cat crates/scramotp/out/built_for 2>/dev/null || echo x86-64-v2)

# Below make time, what measures a step of this name.
timed = $(if $(TIMES),python3 tests/timed.py $(2) $(TIMES) '$(1)')
export TIMES

.PHONY: help run build libraries libscramotp plugin install install_library install_plugin deb setup
.PHONY: test test-doors prove test-all time coverage fuzz bench clean kit this_kit needed FORCE

help:
	@echo 'make run        prints the keys of the example in RFC 5802, also before anything is built'
	@echo 'make build      proves the program and leaves it at $(PROGRAM);'
	@echo '                CPU=x86-64-v3 builds it for newer processors'
	@echo 'make libraries  proves the libraries, for a server of your own'
	@echo 'make libscramotp proves the library for C, and leaves it in clib/out'
	@echo 'make plugin     compiles the plug-in for Cyrus SASL, with that library in it'
	@echo 'make install    copies the built program to $$(DESTDIR)$$(PREFIX)/bin,'
	@echo '                its tools to $$(DESTDIR)$$(PREFIX)/share/scramotp, its documents to share/doc/scramotp there,'
	@echo '                and its units, man pages and completions to where systemd, man, bash, zsh and fish look for them;'
	@echo '                also the library for C and the plug-in, if they are built'
	@echo 'make deb        makes a package for Debian of the built program, and prints its path'
	@echo 'make setup      installs what the tests need, on Debian and as root'
	@echo 'make test       compiles the program and all tests without proofs, and runs them: some 10 minutes'
	@echo 'make test-doors tests only the hosts, and the doors with real servers and their clients'
	@echo 'make prove      proves all, and checks that proofs refuse wrong bodies: about an hour from nothing on 4 cores;'
	@echo '                SHARE=1 tries all wrong bodies, instead of about a third'
	@echo 'make test-all   tests the proved program, with every random choice, and plants all bugs that the scripts have to refuse'
	@echo 'make time       does test and prove, and writes what each part took to out/times.csv'
	@echo 'make coverage   measures how much of the built program the tests run; needs objdump and readelf too'
	@echo 'make fuzz       gives the built program random input, for some minutes'
	@echo 'make bench      compares speeds with OpenSSL, Python, oathtool, GNU SASL and others'
	@echo 'make clean      removes what was built'

# A program that is not built is compiled from its sources first, which proves nothing. It stays where make install does not look.
run:
	@if $(IS_FRESH); then echo pencil | $(PROGRAM) $(EXAMPLE); else \
		$(MAKE) --no-print-directory kit && \
		echo 'Nothing is proved yet: make build does that. This compiles the program from its sources, in some minutes.' >&2 && \
		python3 tests/unproved.py scramotp $(UNPROVED) && echo pencil | $(UNPROVED) $(EXAMPLE); fi

build: $(PROGRAM)

ifneq ($(CPU),$(BUILT_FOR))
$(PROGRAM): FORCE
endif

# The libraries of ours that one uses, as crates.txt names them.
uses = $(filter $(LIBRARIES),$(shell sed -n 's/^$(1): //p' crates.txt))
# The sources of a crate.
sources_of = $(filter crates/$(1)/%,$(SOURCES))

# A library is proved after those that it uses, and one at a time: rt locks those that it uses too, and each uses mac_core.
define library_rule
crates/$(1)/out/built: $(foreach it,$(call uses,$(1)),crates/$(it)/out/built) $(call sources_of,$(1)) crates.txt
	@echo "$$$$(date +%T) $(1)" && mkdir -p $$(@D) && cd crates/$(1) && \
		{ rt lib --jobs $(JOBS) >out/build.log 2>&1 || { cat out/build.log; exit 1; }; }
	@touch $$@
endef
$(foreach it,$(LIBRARIES),$(eval $(call library_rule,$(it))))

libraries: $(foreach it,$(LIBRARIES),crates/$(it)/out/built)

# The library for C, its header, and what pkg-config reads.
libscramotp: kit crates/log_report/out/built
	@echo "$$(date +%T) c_library" && mkdir -p crates/c_library/out && cd crates/c_library && \
		{ rt lib --jobs $(JOBS) >out/build.log 2>&1 || { cat out/build.log; exit 1; }; }
	python3 clib/merge.py $(CLIB_FOLDER) crates/c_library/out/libc_library.a
	cp clib/scramotp.h $(CLIB_FOLDER)
	sed 's|@PREFIX@|$(PREFIX)|' clib/scramotp.pc.in >$(CLIB_FOLDER)/scramotp.pc

# The plug-in has only the symbol that Cyrus looks for.
plugin:
	@test -f $(CLIB_FOLDER)/libscramotp.a || { echo 'There is no library for C yet: run make libscramotp first.' >&2; exit 1; }
	mkdir -p $(PLUGIN_FOLDER)
	$(CC) -std=c11 -O2 $(CFLAGS) -Wall -Wextra -Wpedantic -Wconversion -Wshadow -Werror -fPIC -fvisibility=hidden -shared -I clib \
		-o $(PLUGIN_FOLDER)/libscramotp-cyrus.so plugins/cyrus/scramotp.c $(CLIB_FOLDER)/libscramotp.a \
		-Wl,--exclude-libs,ALL -Wl,-z,relro,-z,now,-z,noexecstack $(LDFLAGS)

$(PROGRAM): $(SOURCES)
	@$(MAKE) --no-print-directory kit
	@echo 'This proves $(words $(LIBRARIES)) libraries and the program, and builds it for $(CPU). From nothing, allow 40 minutes on 4 cores.'
	@$(MAKE) --no-print-directory libraries
	@echo "$$(date +%T) scramotp"
	@mkdir -p $(@D) && cd crates/scramotp && \
		{ rt run --jobs $(JOBS) $(addprefix --cpu=,$(filter-out x86-64-v2,$(CPU))) -- --version 2>out/build.log || \
			{ cat out/build.log; exit 1; }; }
	@echo $(CPU) >$(@D)/built_for
	@touch $@

FORCE:

install:
	@$(IS_FRESH) || { echo 'The program is not built, or is older than its sources: run make build first.' >&2; exit 1; }
	install -D -m 755 $(PROGRAM) "$(DESTDIR)$(PREFIX)/bin/scramotp"
	install -D -m 755 -t "$(DESTDIR)$(PREFIX)/share/scramotp" $(TOOLS) $(HOSTS)
	install -D -m 644 -t "$(DESTDIR)$(PREFIX)/share/scramotp/scramotp_host" hosts/scramotp_host/*.py
	for it in $(notdir $(wildcard hosts/units/*)); do sed 's|/usr/local/|$(PREFIX)/|' "hosts/units/$$it" | \
		install -D -m 644 /dev/stdin "$(DESTDIR)$(PREFIX)/lib/systemd/system/$$it" || exit 1; done
	install -D -m 644 -t "$(DESTDIR)$(PREFIX)/share/doc/scramotp" $(DOCUMENTS)
	install -D -m 644 -t "$(DESTDIR)$(PREFIX)/share/doc/scramotp/docs" docs/*.md docs/*.png
	install -D -m 644 -t "$(DESTDIR)$(PREFIX)/share/doc/scramotp/docs/editions" docs/editions/*.txt
	install -D -m 644 -t "$(DESTDIR)$(PREFIX)/share/doc/scramotp/bench" bench/README.md
	install -D -m 644 -t "$(DESTDIR)$(PREFIX)/share/doc/scramotp/plugins/cyrus" plugins/cyrus/README.md
	install -D -m 644 -t "$(DESTDIR)$(PREFIX)/share/man/man1" man/*.1
	install -D -m 644 -t "$(DESTDIR)$(PREFIX)/share/man/man5" man/*.5
	install -D -m 644 -t "$(DESTDIR)$(PREFIX)/share/man/man8" man/*.8
	for it in $(notdir $(wildcard completions/*.bash)); do install -D -m 644 "completions/$$it" \
		"$(DESTDIR)$(PREFIX)/share/bash-completion/completions/$${it%.bash}" || exit 1; done
	install -D -m 644 -t "$(DESTDIR)$(PREFIX)/$(ZSH_FOLDER)" completions/_*
	install -D -m 644 -t "$(DESTDIR)$(PREFIX)/share/fish/vendor_completions.d" completions/*.fish
	@test ! -f "$(CLIB_FOLDER)/libscramotp.a" || $(MAKE) --no-print-directory install_library
	@test ! -f "$(PLUGIN_FOLDER)/libscramotp-cyrus.so" || $(MAKE) --no-print-directory install_plugin

install_library:
	install -D -m 644 -t "$(DESTDIR)$(PREFIX)/lib" "$(CLIB_FOLDER)/libscramotp.a" "$(CLIB_FOLDER)/libscramotp.so.0"
	ln -sf libscramotp.so.0 "$(DESTDIR)$(PREFIX)/lib/libscramotp.so"
	install -D -m 644 -t "$(DESTDIR)$(PREFIX)/include" clib/scramotp.h
	install -D -m 644 clib/scramotp.pc.in "$(DESTDIR)$(PREFIX)/lib/pkgconfig/scramotp.pc"
	sed -i 's|@PREFIX@|$(PREFIX)|' "$(DESTDIR)$(PREFIX)/lib/pkgconfig/scramotp.pc"

# Not among the plug-ins of Cyrus, which prefers its own for the same mechanisms.
install_plugin:
	install -D -m 644 -t "$(DESTDIR)$(PREFIX)/lib/scramotp/sasl2" "$(PLUGIN_FOLDER)/libscramotp-cyrus.so"

# The time of its files is that of the last commit, so that the same commit gives the same bytes.
deb:
	SOURCE_DATE_EPOCH=$${SOURCE_DATE_EPOCH:-$$(git log -1 --format=%ct)} python3 packaging/make_deb.py $(PROGRAM) $(DEB_FOLDER)

setup:
	python3 tests/needs.py --install

test: needed
	@JOBS=$(JOBS) python3 tests/run.py --unproved

test-doors: needed
	@JOBS=$(JOBS) python3 tests/run.py --unproved $(DOORS)

prove: this_kit
	$(call timed,rt ci,--crates) python3 tests/proved.py rt ci
	@rm -f crates/scramotp/out/built_for
	$(call timed,edits.py) python3 tests/edits.py --built --share $(SHARE)
	$(call timed,archive.py) python3 tests/archive.py
	$(call timed,c_library.py of the proved library) python3 tests/c_library.py $(PROGRAM)
	$(call timed,cyrus.py of the proved library) python3 tests/cyrus.py $(PROGRAM)

test-all: needed build libscramotp
	cd crates/bench && rt run -- hotp 1 12345678901234567890
	FRESH=yes JOBS=$(JOBS) python3 tests/run.py $(PROGRAM)
	FRESH=yes python3 tests/planted.py --jobs $(JOBS)

# Each part has a line: its name, its seconds of wall time and its seconds of processor time. The last lines are those of the longest. Of a
# crate's edits only the last number is there: how long their checks took, which run side by side.
time:
	@mkdir -p out && rm -f $(TIMES)
	python3 tests/timed.py $(TIMES) 'make test' $(MAKE) --no-print-directory test TIMES=$(TIMES)
	python3 tests/timed.py $(TIMES) 'make prove' $(MAKE) --no-print-directory prove TIMES=$(TIMES)
	@sort -t, -k2,2n -k3,3n $(TIMES)

# Measures what the scripts run of the program, which takes them longer than usual. It judges nothing.
coverage: needed build
	@for it in objdump readelf; do command -v $$it >/dev/null || { echo "This needs $$it on your PATH" >&2; exit 1; }; done
	python3 tests/coverage.py $(PROGRAM)

# What the other scripts choose at random: which runs they kill, and in which order they do things.
RANDOM = hall.py sessions.py hall_kill.py login_kill.py books.py machine.py dovecot_auth.py
# Each run begins from another seed, which it prints: make fuzz SEED=7 tries the same again.
SEED := $(or $(SEED),$(shell date +%s))
COUNT ?= 5000
fuzz: needed build libscramotp
	@echo 'SEED=$(SEED) COUNT=$(COUNT)'
	SEED=$(SEED) COUNT=$(COUNT) python3 tests/fuzz.py $(PROGRAM)
	SEED=$(SEED) DURATION=60 python3 tests/c_library.py $(PROGRAM) fuzzed
	SEED=$(SEED) DURATION=60 JOBS=$(JOBS) python3 tests/run.py $(PROGRAM) $(RANDOM)

bench: build libscramotp
	cd crates/bench && rt run -- hotp 1 12345678901234567890
	python3 bench/keys.py $(PROGRAM)
	python3 bench/messages.py crates/bench/out/bench
	python3 bench/verdicts.py crates/bench/out/bench
	python3 bench/books.py $(PROGRAM) crates/bench/out/bench
	python3 bench/serve.py $(PROGRAM) crates/bench/out/bench
	python3 bench/hall.py $(PROGRAM) crates/bench/out/bench
	python3 bench/audit.py $(PROGRAM)
	python3 bench/door.py $(PROGRAM)
	python3 bench/c_library.py

clean:
	rm -rf out clib/out plugins/*/out crates/*/out tests/__pycache__ bench/__pycache__ hosts/scramotp_host/__pycache__

kit:
	@command -v rt >/dev/null || { echo 'rt, the command of the Rattle kit, is not on your PATH' >&2; exit 1; }

# No fault: another kit proves all anew. But one of another logic may refuse what this one proved.
this_kit: kit
	@found="$$(rt version)"; test "$$found" = '$(KIT)' || \
		echo "The documents name the kit $(KIT), and this is $$found." \
			"Once all passes with it, change KIT in the Makefile, and its name in README.md and docs/PROMISES.md." >&2

needed:
	@python3 tests/needs.py
