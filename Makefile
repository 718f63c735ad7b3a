# Two commands: `make run` shows what happens on the hill, the night recorded there, and what the gauge's functions make of fixed vectors; `make test` is
# all that the gate runs.
.PHONY: run test check lib install first two_ponds hill network page browser fmt definitions vectors outside captured counted compare planted nights soak tools clean bench

# What is not proved yet is proved first, and told crate by crate (tools/prove). The three programs of bin/ are then built too.
run: tools
	@$(MAKE) --no-print-directory hill
	@echo
	@tools/run-night
	@echo
	@tests/vectors/run-vectors

test:
	@tests/gate

# While working: prove what changed. Not the gate.
check:
	@rt all check

# What a C program links and includes: target/libgauge.a, target/gauge.h, for a host target/gauge_host.h, to record calls target/gauge_trace.h.
lib:
	@tools/install lib
	@tools/lib
	@echo 'target/libgauge.a and target/gauge.h, for C on x86-64'

# The same where pkg-config finds it: make install PREFIX=.. (DESTDIR for whoever makes a package).
PREFIX = /usr/local
install:
	@tools/install lib
	@tools/lib
	@tools/install-lib $(PREFIX) $(DESTDIR)

# Radio programs in C, built on the archive and run: the first host, two gauges by each call in turn, and all 61.
C = tools/cc -std=c99 -O1 -Wall -Wextra -Wconversion -Wshadow -Werror -Itarget
define example
@tools/lib
@mkdir -p target/examples
@$(C) examples/$@.c target/libgauge.a -o target/examples/$@
@tools/run target/examples/$@
endef
first: tools
	$(example)

two_ponds: tools
	$(example)

# It leaves the nights of its gauges in target/hill, and of one of them in target/hill.trace, with hours, answers, names and readings beside it. A file of
# that name is a program that was built there.
hill: tools
	@[ -d target/hill ] || rm -f target/hill
	@mkdir -p target/hill
	$(example)

# Gauges on real sockets: 61 processes of examples/radio.c, one gauge each, on ::1; 16 where an emulator runs them. What each kept and said is left in
# target/network.
network: tools
	@tools/lib
	@mkdir -p target/examples
	@$(C) examples/radio.c target/libgauge.a -o target/examples/radio
	@tools/network.py tools/run target/examples/radio

# The night that the hill leaves, as a page: target/hill.html.
page: hill
	@echo
	@bin/page --to target/hill.html target/hill.trace target/hill.names
	@echo 'target/hill.html is the page of pond 34'"'"'s night'

# That page, and those of an empty, a bad and a very long night, opened and clicked in Debian's chromium; pictures are left in target/page. No test of the
# gate.
browser: page
	@tools/install browser
	@tests/outside/browser.py target/hill.html target/hill.trace

# Lays out the Rattle sources, crate by crate; `rt ci` refuses one that is not.
fmt:
	@for crate in crates/*/; do (cd "$$crate" && rt fmt) || exit 1; done

# How many lines of definitions there are to believe.
definitions:
	@tools/definitions

# The vectors and their answers anew, from tests/vectors/vectors.py.
vectors:
	@tests/vectors/vectors.py --write

# The good datagrams of the vectors, shown to Wireshark: to its own dissector and to ours (tools/drt.lua), also damaged ones. No test of the gate.
outside:
	@tools/install outside
	@tests/outside/wireshark.py

# What a few gauges send one another on real sockets, captured and shown to Wireshark likewise; the capture is left. A test of the gate, where tshark is.
captured: tools
	@tools/install outside
	@tests/outside/captured

# Executed instructions of form and closest against plain C (docs/landings/03-memory.md). A test of the gate.
counted:
	@tests/c/counted

# Random nights through the archive and through the model in tests/models/model.c; then bugs planted in the model, which must be found. Tests of the gate.
compare: tools
	@tests/nights/compare

planted: tools
	@tests/planted/planted

# The program replay against the models: the document's cases, random nights and the hill's. A test of the gate.
nights: tools
	@tests/programs/replay

# Ten million calls, of other nights than the gate's. No test of the gate: it takes most of an hour where the archive runs by an emulator.
soak: tools
	@tests/nights/compare 10000000 2

# The calls of the archive beside plain C that does the same (docs/PERFORMANCE.md). No test of the gate.
bench: tools
	@bench/build
	@echo 'The archive beside plain C (bench/plain.c), the best of the compilers there are. same: how many times what plain C takes that looks at the same records;'
	@echo 'halving: .. that searches keys by halving. Above 1 the archive takes more. The clock means nothing where an emulator runs x86-64; instructions do.'
	@echo
	@tools/run target/bench/bench
	@echo
	@bench/instructions

tools:
	@tools/install

# With what rt keeps of its proofs in each crate.
clean:
	@rm -rf target crates/*/out
