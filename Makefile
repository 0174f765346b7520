.PHONY: test run look build bench memory fuzz browser streams trial install uninstall deb try-deb release page

# How many checks of the gate run at a time: one a processor, or fewer, so that each can have 4 GB. Most take
# less than that; `trial_calls` takes 6.
JOBS := $(shell awk -v most="$$(nproc)" '/^MemAvailable/ { n = int($$2 / 4000000); \
	print n < 1 ? 1 : n < most ? n : most }' /proc/meminfo)

# For which processor `make build` makes the program: none named is x86-64-v2, which the gate proves and tests;
# x86-64-v3 is one of 2013 and later. Such a program stands in a folder of its own, and each word below takes it by CPU= too.
CPU :=

# The proved program.
PROGRAM := crates/genedit/out/$(if $(CPU),$(CPU)/)genedit

# Where `make install` puts it, as it is named there; DESTDIR, if given, stands in front.
PREFIX := /usr/local

# Everything that must pass: each crate's proofs and tests from nothing, the edits that the prover
# must refuse, each program's stored run, and then the example scripts through the built program.
# It says what it is at; the last line is `N passed, M failed`, of all of them. The prover's memory comes in
# large pages where the system has them to give, which spares it some of its time.
test:
	@GLIBC_TUNABLES=glibc.malloc.hugetlb=1 RT_JOBS=$(JOBS) examples/count

# Runs `genedit` on its stored script: the proved program, where it stands and is no older than its
# sources; else an unproved one that is made in a minute or two, which is said on standard error.
run:
	@if $(MAKE) -s -q $(PROGRAM); then $(PROGRAM) run < crates/genedit/stdin; \
	else examples/look crates/genedit/stdin; fi

# Runs an unproved `genedit` on a script: `make look SCRIPT=FILE`.
look:
	@examples/look "$(SCRIPT)"

# Proves the program and all that it stands on, in a copy, and builds it: a line for each crate that is done.
build: $(PROGRAM)

# What is proved and built: all that the gate reads of the crates, tests aside; and of that what the program stands on.
ALL_SOURCES := $(shell find crates -name out -prune -o -name trials -prune -o -name must-fail -prune \
	-o -path '*/test_*/*' -prune \
	-o \( -name '*.rt' -o -name '*.antt' -o -name src -o -name specs -o -name proofs \) -print)
SOURCES := $(filter-out $(patsubst %,crates/%/%,samples memory_board trial_calls bench_calls),$(ALL_SOURCES))

# The program that tries calls with memory refused and with bytes by chance, and the one that measures what no script
# reaches.
TRIALS := crates/trial_calls/out/trial_calls
MEASURES := crates/bench_calls/out/bench_calls

$(PROGRAM): $(SOURCES) crates.txt HANDLES
	@examples/build genedit $(CPU)

$(TRIALS) $(MEASURES): $(ALL_SOURCES) crates.txt HANDLES
	@examples/build $(notdir $@)

# Measures; asserts nothing: scripts through the program, how costs grow, and what no script reaches.
bench: $(PROGRAM) $(MEASURES)
	@examples/measure --program $(PROGRAM)
	@examples/growth $(PROGRAM)
	@$(MEASURES) --time

# Runs each call that takes memory with each allocation refused in turn, and so a server of a kept board and the
# commands of documents. Needs a C compiler.
memory: $(PROGRAM) $(TRIALS)
	@examples/refuse
	@examples/kept $(PROGRAM) refuse
	@examples/documents $(PROGRAM) refuse

# Feeds 3,000 rounds of bytes by chance to each call that reads what others send, and 3,000 files of MCell and of
# plaintext to the program.
fuzz: $(PROGRAM) $(TRIALS)
	@$(TRIALS) fuzz 3000 7
	@examples/files $(PROGRAM) 3000 7

# Tries the page in headless Chromium, and tells where its pictures are. Needs Node.js 20 and Debian's chromium.
browser: $(PROGRAM)
	@examples/page $(PROGRAM) browser

# Carries a document over Redis and MQTT. Needs Debian's redis-server, mosquitto and mosquitto-clients, and names
# those that are not there.
streams: $(PROGRAM)
	@examples/streams/trial $(PROGRAM)

# Tries the wrong bodies that the gate leaves out: the prover must refuse each. `make trial
# CRATES="a b"` tries those of these crates alone.
trial:
	@examples/trial $(CRATES)

# Installs what `make build` proved, with pages for `man`, completions, Golly's scripts and examples. It proves
# nothing itself, since it may run as root.
install:
	@$(MAKE) -s -q $(PROGRAM) || { echo "make install: the program is not built, or older than its sources: make build" >&2; exit 1; }
	@examples/package/install $(PROGRAM) "$(PREFIX)" "$(DESTDIR)"

# Takes away what is listed as installed.
uninstall:
	@examples/package/install --away "$(PREFIX)" "$(DESTDIR)"

# Makes the Debian package in out/, and prints its path. Needs Debian's `dpkg-deb`.
deb: $(PROGRAM)
	@mkdir -p out
	@examples/package/deb $(PROGRAM) out

# Installs the package into a folder, runs README's first script by it, and removes it; as root `make try-deb
# HOW="--debian bookworm"` does so in a new Debian, by `debootstrap`, and `HOW=--keepers` boots one, in which systemd and
# cron keep a board.
try-deb: $(PROGRAM)
	@mkdir -p out
	@examples/package/try "$$(examples/package/deb $(PROGRAM) out)" $(HOW)

# Makes a release of the last commit in out/release, or in FOLDER: from a clean clone it runs the gate, builds, runs `memory`
# and `fuzz`, makes the package, and writes what was proved.
release:
	@examples/package/release $(FOLDER)

# Writes the page alone into share/, from web/.
page:
	@web/bundle
	@cp web/out/pazgrot.html share/pazgrot.html
