# The commands of a fresh machine that has the toolchain's `rt` on its PATH.
PREFIX ?= /usr/local
EXAMPLE ?= examples/london-rome.txt
RECORDS ?= 200000
# The built program. It stands beside what `rt` makes, which `make test` sets aside while it runs.
PROGRAM = build/fares
SOURCES = crates.txt $(shell find crates -name out -prune -o \( -name '*.rt' -o -name '*.antt' \) -print)

.PHONY: quote try test install deb speed try-store program

# Proves and builds the program where it isn't built yet, and quotes an example trip.
quote: program
	$(PROGRAM) price < $(EXAMPLE)

# Quotes the same trip with nothing proved, by a program of as few crates as serve.
try:
	cd crates/fare_trial && rt try fare_trial < $(abspath $(EXAMPLE))

# Every proof, must-fail edit, test and program.
test:
	.ci/run

# Copies the proved program, and its page for `man`.
install: program
	install -D $(PROGRAM) $(DESTDIR)$(PREFIX)/bin/fares
	install -D -m 644 docs/fares.1 $(DESTDIR)$(PREFIX)/share/man/man1/fares.1

# A Debian package of the proved program, with what an office needs around it.
deb: program
	deploy/make-deb $(PROGRAM) .

# How long a tariff of RECORDS records takes to be read and checked.
speed: program
	examples/many-records $(RECORDS) > many-records.txt
	time $(PROGRAM) price < many-records.txt
	rm many-records.txt

# What a file of editions bears, tried for real.
try-store: program
	examples/try-store $(PROGRAM)

# The program's crates are proved in a copy without what it doesn't need: the crates of tests and the must-fail edits.
# What is proved there is kept beside the toolchain, so `make test` doesn't prove it once more, nor this what that did.
TESTS = crates/test_* crates/fare_trial crates/fare_outside

program: $(PROGRAM)

$(PROGRAM): $(SOURCES)
	room=$$(mktemp -d) && trap 'rm -rf "$$room"' EXIT && \
	tar -c $(patsubst %,--exclude='%',$(TESTS)) --exclude=out --exclude=must-fail crates HANDLES | tar -x -C "$$room" && \
	grep -v '^test_\|^fare_trial\|^fare_outside' crates.txt > "$$room/crates.txt" && \
	(cd "$$room" && rt ci) && install -D "$$room/crates/fares/out/fares" $(PROGRAM)
