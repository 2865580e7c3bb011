.PHONY: run test cases layers coils coils-test libyard yard tool-test pictures install uninstall c-example stack fuzz \
    bench bench-peers bench-base help

# Proves and builds the program coils and runs it on document 01's example and on a plate yard.
run: target/coils
	cd crates/coils/data && "$(CURDIR)/target/coils" <../stdin | tee "$(CURDIR)/target/course.out"
	cmp target/course.out crates/coils/stdout
	cd examples/plate && "$(CURDIR)/target/coils" <records | tee "$(CURDIR)/target/plate.out"
	cmp target/plate.out examples/plate/expected
	@echo 'Both examples came out as stored.'

# The gate: every crate proved, every must-fail edit refused, every program's output as stored.
test:
	bash .ci/run

# Compares the stored test cases and expected outputs with what their generators write (needs Python 3).
cases: layers
	@python3 tests/make_page_cases.py --check
	@python3 tests/make_search_cases.py --check
	@python3 tests/make_route_cases.py --check
	@python3 tests/make_panel_cases.py --check
	@python3 tests/make_records_cases.py --check
	@python3 tests/make_order_cases.py --check
	@python3 tests/make_store_cases.py --check
	@python3 tests/make_handles_cases.py --check
	@python3 tests/make_coils_examples.py --check

# What would look at page bytes, by the names that the sources use: a slice under another name escapes this.
LOOKS := \b(page|image)\[|(byte_at|word_at|part_of|command_at)\((page|image)\b
SEE_NO_BYTES := layout queue cells relax rows page whole work reference engine tables reply \
    search panel line coil move_record listing writing records order store telling yard yard_c
# Not among them: by_station, which reads the moves of a good page command by command, and imaging, which writes pages.

# Looks in the crates that are to see no page bytes for an index of, or a byte read from, a slice called page or image.
layers:
	@grep -nE '$(LOOKS)' $(SEE_NO_BYTES:%=crates/%/src/*.rt); test $$? = 1
	@echo 'layers: no page bytes looked at in $(SEE_NO_BYTES)'

# What a library is proved and built from.
RATTLE := crates.txt $(shell find crates -name out -prune -o \( -name '*.rt' -o -name '*.antt' \) -print)
LIBYARD := target/staticlib/libyard.a

$(LIBYARD): $(RATTLE)
	cd crates/yard_c && rt lib
	mkdir -p $(@D)
	cp crates/yard_c/out/libyard_c.a $@

# Proves the program coils and builds it, as target/coils.
coils: target/coils

# The kit builds a program only to run it. That run finds no map and gets no record, and its status says nothing.
define COILS_BUILT_BY
	rm -f crates/coils/out/coils
	cd crates/coils && { rt run --backend $(1) </dev/null; test -x out/coils; }
	mkdir -p $(@D)
	cp crates/coils/out/coils $@
endef

target/coils: $(RATTLE)
	$(call COILS_BUILT_BY,llvm)

# The program as the compiler that is written in Rattle builds it. One build at a time: both come from one folder.
target/by-rattle/coils: $(RATTLE) | target/coils
	$(call COILS_BUILT_BY,rattle)

# Runs both builds of coils from outside: maps and records of every kind, slow and closed streams (needs Python 3).
coils-test: target/coils target/by-rattle/coils
	python3 tests/coils_outside.py

# Proves the C interface and what is below it, and writes target/staticlib/libyard.a.
libyard: $(LIBYARD)

C99 := $(CC) -std=c99 -O2 -Wall -Wextra -Werror -pedantic -Iinclude

# Builds the C programs way, panel, redraw, order and replay and runs them, with each of their statuses (needs C).
c-example: $(LIBYARD)
	$(C99) -o target/way examples/way.c target/staticlib/libyard.a
	$(C99) -o target/panel examples/panel.c target/staticlib/libyard.a
	$(C99) -o target/redraw examples/redraw.c target/staticlib/libyard.a
	$(C99) -o target/order examples/order.c target/staticlib/libyard.a
	$(C99) -o target/replay examples/replay.c target/staticlib/libyard.a
	target/way crates/coils/data/yard.map 0 6
	target/way examples/plate/yard.map 396 0; test $$? = 1
	target/way crates/coils/data/yard.map 0 -1; test $$? = 2
	target/way crates/coils/data/yard.map 6 0; test $$? = 3
	target/way examples/plate/yard.map 203 202 8440
	target/way examples/plate/yard.map 203 202 8441
	target/way examples/plate/yard.map 203 204 12001; test $$? = 3
	target/way examples/plate/yard.map 203 181
	target/panel crates/coils/data/yard.map 0 6
	target/panel crates/coils/data/yard.map 0 7; test $$? = 1
	target/panel crates/coils/data/yard.map 7 0; test $$? = 1
	target/panel examples/plate/yard.map 396 0; test $$? = 1
	target/panel crates/coils/data/yard.map 0 65536; test $$? = 2
	target/panel crates/coils/data/yard.map 6 0; test $$? = 3
	target/panel examples/plate/yard.map 203 202 8440
	target/panel examples/plate/yard.map 203 202 8441
	target/panel examples/plate/yard.map 203 204 12001; test $$? = 3
	target/panel examples/plate/yard.map 203 181
	target/redraw crates/coils/data/yard.map target/redrawn.map
	cmp target/redrawn.map crates/coils/data/yard.map
	target/redraw crates/coils/data/yard.map target/redrawn.map 5 6 4
	target/way target/redrawn.map 0 6
	target/redraw crates/coils/data/yard.map target/redrawn.map 6 0 5 8120
	target/way target/redrawn.map 6 0 8120
	target/way target/redrawn.map 6 0 8121; test $$? = 3
	target/redraw examples/plate/yard.map target/redrawn.map; test $$? = 1
	target/redraw crates/coils/data/yard.map target/redrawn.map 6 6 5; test $$? = 1
	target/redraw crates/coils/data/yard.map target/redrawn.map 6 0; test $$? = 2
	target/order crates/coils/data/yard.map crates/coils/data/yard.map >target/ordered
	grep ' are equal: ' target/ordered
	{ head -c 4 crates/coils/data/yard.map; printf '\1\1\1\1\0\0\0'; tail -c 256 crates/coils/data/yard.map; \
	    tail -c 512 crates/coils/data/yard.map | head -c 256; } >target/exchanged.map
	! cmp -s target/exchanged.map crates/coils/data/yard.map
	target/order target/exchanged.map crates/coils/data/yard.map >target/ordered
	grep ' are equal: ' target/ordered
	target/redraw crates/coils/data/yard.map target/redrawn.map 6 0 5
	target/order crates/coils/data/yard.map target/redrawn.map >target/ordered
	grep '^crates/coils/data/yard.map comes before target/redrawn.map$$' target/ordered
	target/order target/redrawn.map crates/coils/data/yard.map | cmp - target/ordered
	target/redraw crates/coils/data/yard.map target/redrawn.map 5 6 1 8120
	target/order target/redrawn.map target/exchanged.map >target/ordered
	grep '^target/exchanged.map comes before target/redrawn.map$$' target/ordered
	target/redraw crates/coils/data/yard.map target/redrawn.map 0 2 65535
	target/order crates/coils/data/yard.map target/redrawn.map >target/ordered
	grep '^target/redrawn.map comes before crates/coils/data/yard.map$$' target/ordered
	target/order crates/coils/data/yard.map examples/plate/yard.map >target/ordered; test $$? = 1
	grep '^examples/plate/yard.map refused 12: .*, page 23, offset 27$$' target/ordered
	target/order examples/plate/yard.map Makefile | cmp - target/ordered
	target/order Makefile examples/plate/yard.map >target/ordered; test $$? = 1
	grep '^Makefile refused 2: ' target/ordered
	target/order crates/coils/data/yard.map; test $$? = 2
	target/order crates/coils/data/yard.map target/no.map; test $$? = 2
	target/replay crates/coils/data/yard.map 0 >target/replayed
	grep '^references  *7  *3$$' target/replayed
	grep '^ 1 frame  *4  *3$$' target/replayed
	grep '^ 2 frames  *2  *2$$' target/replayed
	test $$(wc -l <target/replayed) = 4
	target/replay examples/plate/yard.map 203 8441
	target/replay examples/plate/yard.map 396; test $$? = 1
	target/replay crates/coils/data/yard.map; test $$? = 2
	target/replay crates/coils/data/yard.map 0 65536; test $$? = 2

# Measures the stack of each call of the C interface, on full and on damaged maps (needs a C compiler and ucontext).
stack: $(LIBYARD)
	$(C99) -D_XOPEN_SOURCE=700 -o target/stack bench/stack.c target/staticlib/libyard.a
	target/stack

COUNT ?= 20000
SEED ?= 1

# Compares the C interface with a reference of its own on COUNT random cases (needs rustc).
fuzz: target/outside/fuzz
	target/outside/fuzz $(COUNT) $(SEED)

ROUNDS ?= 600

# Measures the C interface against Rust without proofs and, with BASE=, another build of libyard.a (needs rustc).
bench: target/outside/bench
	target/outside/bench $(ROUNDS)

# The same, and against LEMON and Boost where they are installed (needs rustc and a C++ compiler).
bench-peers: target/outside/bench-peers
	target/outside/bench-peers $(ROUNDS)

# Proves an earlier COMMIT= from nothing and builds its library, to be the BASE of bench (needs git).
bench-base:
	test -n '$(COMMIT)'
	rm -rf target/base
	git clone -q . target/base
	git -C target/base checkout -q --detach $(COMMIT)
	@test "$$(grep YARD_VERSION_MAJOR target/base/include/yard.h)" = "$$(grep YARD_VERSION_MAJOR include/yard.h)" || \
	    { echo 'The C interface of $(COMMIT) has other arguments: it cannot be called by bench.'; exit 1; }
	@test -d target/base/crates/yard_c || \
	    { echo '$(COMMIT) was proved with an older kit: this one cannot build it.'; exit 1; }
	cd target/base/crates/yard_c && rt lib
	@echo 'Now: make bench BASE=target/base/crates/yard_c/out/libyard_c.a'

OUTSIDE := target/outside/liboutside.rlib
INTERFACE := target/outside/libinterface.rlib
RUSTC := rustc --edition 2021 -C opt-level=3
WITH_INTERFACE := --extern interface=$(INTERFACE)
WITH_OUTSIDE := $(WITH_INTERFACE) --extern outside=$(OUTSIDE) -L target/outside

# The C interface for Rust programs.
$(INTERFACE): $(wildcard interface/src/*.rs)
	mkdir -p $(@D)
	$(RUSTC) --crate-type rlib --crate-name interface -o $@ interface/src/lib.rs

$(OUTSIDE): $(INTERFACE) $(wildcard outside/src/*.rs outside/src/*/*.rs)
	$(RUSTC) --crate-type rlib --crate-name outside $(WITH_INTERFACE) -o $@ outside/src/lib.rs

LINKED := $(WITH_OUTSIDE) -L target/staticlib -l static=yard

target/outside/fuzz: $(OUTSIDE) $(wildcard outside/fuzz/*.rs outside/fuzz/*/*.rs) $(LIBYARD)
	$(RUSTC) $(LINKED) -o $@ outside/fuzz/main.rs

# In the builds that are measured each function begins at a line of the cache, 64 bytes: by its place in the program
# alone the same code is up to 4 percent slower.
ALIGNED := objcopy --set-section-alignment '.text.*=64'

target/outside/libtested.a: $(OUTSIDE) $(LIBYARD)
	$(ALIGNED) $(LIBYARD) $@

# The functions of BASE get other names, so that one program has both builds.
.PHONY: target/outside/libbase.a
target/outside/libbase.a: $(OUTSIDE)
	nm --extern-only --defined-only --format=posix "$(BASE)" | awk 'NF > 1 { print $$1, "base_" $$1 }' >$@.names
	$(ALIGNED) --redefine-syms=$@.names "$(BASE)" $@

# The baselines too: functions, blocks that are jumped to and branches have their places by rule, or the same baseline
# takes a quarter less in the next program.
PLACED := -C codegen-units=1 $(addprefix -C llvm-args=,-align-all-functions=6 -align-all-nofallthru-blocks=5 \
    -x86-branches-within-32B-boundaries)

BENCH := $(OUTSIDE) $(wildcard bench/*.rs) target/outside/libtested.a $(if $(BASE),target/outside/libbase.a)
MEASURED := $(WITH_OUTSIDE) -l static=tested $(if $(BASE),--cfg base -l static=base)

target/outside/bench: $(BENCH)
	$(RUSTC) $(PLACED) $(MEASURED) -o $@ bench/main.rs

# Compiled each time: a library may have been installed since.
PEERS := $(patsubst %,target/outside/%.o,lemon boost peers)
.PHONY: $(PEERS)
$(PEERS): target/outside/%.o: bench/%.cpp
	mkdir -p $(@D)
	$(CXX) -std=c++17 -O3 -DNDEBUG -Wall -Wextra -Werror -c -o $@ $<

target/outside/libpeers.a: $(PEERS)
	$(AR) rcs $@ $^

target/outside/bench-peers: $(BENCH) target/outside/libpeers.a
	$(RUSTC) $(PLACED) $(MEASURED) --cfg peers -l static=peers -l stdc++ -o $@ bench/main.rs

# The version stands in the C interface's header.
VERSION := $(shell awk '/define YARD_VERSION_(MAJOR|MINOR)/ { printf "%s%s", dot, $$3; dot = "." }' include/yard.h)
TOOL := target/tool/libtool.rlib
WITH_TOOL := $(WITH_INTERFACE) --extern tool=$(TOOL) -L target/outside -L target/staticlib -l static=yard

$(TOOL): $(INTERFACE) $(wildcard tool/src/*.rs tool/src/*/*.rs) include/yard.h
	mkdir -p $(@D)
	YARD_VERSION=$(VERSION) $(RUSTC) --crate-type rlib --crate-name tool $(WITH_INTERFACE) -o $@ tool/src/lib.rs

# Builds target/yard, the tool of those who draw, check and read maps (needs rustc).
yard: target/yard

target/yard: $(TOOL) tool/main.rs $(LIBYARD)
	$(RUSTC) $(WITH_TOOL) -C strip=symbols -o $@ tool/main.rs

target/tool/random: $(TOOL) $(OUTSIDE) tool/random.rs $(LIBYARD)
	$(RUSTC) $(WITH_TOOL) --extern outside=$(OUTSIDE) -o $@ tool/random.rs

MAPS ?= 100000

# Tests the tool: every command and error, broken files, MAPS maps of random bytes (needs rustc, Python 3, C).
tool-test: yard coils target/tool/random
	python3 tests/tool/run.py
	target/tool/random $(MAPS) $(SEED)

# Draws the pictures in docs anew (needs rustc and Graphviz).
pictures: yard
	target/yard dot examples/maps/m7.map --from 0 | dot -Tsvg >docs/m7.svg

PREFIX ?= /usr/local
INSTALLED := bin/coils bin/yard include/yard.h lib/libyard.a lib/pkgconfig/yard.pc share/man/man1/yard.1
PLACE = '$(DESTDIR)$(PREFIX)'

# Installs coils, yard, the header, the library, a pkg-config file and the man page below PREFIX (needs rustc).
install: coils yard
	mkdir -p $(foreach folder,$(sort $(dir $(INSTALLED))),$(PLACE)/$(folder))
	install -m 755 target/coils target/yard $(PLACE)/bin
	install -m 644 include/yard.h $(PLACE)/include
	install -m 644 $(LIBYARD) $(PLACE)/lib
	sed 's|@PREFIX@|$(PREFIX)|; s|@VERSION@|$(VERSION)|' tool/yard.pc.in >$(PLACE)/lib/pkgconfig/yard.pc
	install -m 644 tool/yard.1 $(PLACE)/share/man/man1

# Removes what install put below PREFIX.
uninstall:
	rm -f $(foreach file,$(INSTALLED),$(PLACE)/$(file))

# Lists the targets, each by the comment above it.
help:
	@awk -F: '/^# / { text = substr($$0, 3); next } \
	    /^[a-z][a-z-]*:/ && text { printf "make %-11s %s\n", $$1, text } { text = "" }' Makefile
