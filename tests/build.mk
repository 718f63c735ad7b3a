# What the tests compile: every object once, whichever tests want it. `built` of tests/shared.sh and tests/planted/planted call this; by hand it is
# make -s -f tests/build.mk target/tests/NAME. A file is moved to its place when it is whole, so that two tests may build at the same time.
OUT = target/tests
STRICT = -std=c99 -pedantic -Wall -Wextra -Wconversion -Wshadow -Werror -Iinclude -Itests/models -Itests/nights -Itests/c
SANITIZERS = -fsanitize=address,undefined -fno-sanitize-recover=all
HEADERS = $(wildcard include/*.h tests/*/*.h)
MODEL = model draft reached lent
COMPARE = compare compare_calls compare_done fence calling
vpath %.c tests/models tests/nights tests/c tests/programs examples $(OUT)

# by name: the objects that a program is made of
compare = $(COMPARE) $(MODEL)
carry = readings fence calling model_readings $(MODEL)
nights = nights model_night $(MODEL)
named = named model_named model lent
model_asked = model_asked model_night model_readings model lent
settings = settings
recorded = recorded calling lent
abi = abi calling lent
shortest = shortest
host = host calling lent
first = first
hill = hill
radio = radio

# for x86-64, with the archive; and by the model alone, for this machine: by gcc under the sanitizers, and by clang
ON_ARCHIVE = compare carry settings recorded abi shortest host first hill radio
ALONE = compare carry nights named model_asked

.SECONDARY:
.SECONDEXPANSION:
.DELETE_ON_ERROR:
.PHONY: always

$(OUT)/x86/%.o: %.c $(HEADERS) tests/build.mk
	@mkdir -p $(@D)
	@tools/cc $(STRICT) -O2 -c $< -o $@.$$$$ && mv $@.$$$$ $@

$(OUT)/alone/%.o: %.c $(HEADERS) tests/build.mk
	@mkdir -p $(@D)
	@gcc $(STRICT) -DALONE -O1 -g $(SANITIZERS) -c $< -o $@.$$$$ && mv $@.$$$$ $@

$(OUT)/clang/%.o: %.c $(HEADERS) tests/build.mk
	@mkdir -p $(@D)
	@clang $(STRICT) -DALONE -O1 -c $< -o $@.$$$$ && mv $@.$$$$ $@

$(ON_ARCHIVE:%=$(OUT)/%): $(OUT)/%: $$(addprefix $(OUT)/x86/,$$(addsuffix .o,$$($$*))) target/libgauge.a
	@tools/cc $^ -o $@.$$$$ && mv $@.$$$$ $@

$(ALONE:%=$(OUT)/%-alone): $(OUT)/%-alone: $$(addprefix $(OUT)/alone/,$$(addsuffix .o,$$($$*)))
	@gcc $(SANITIZERS) $^ -o $@.$$$$ && mv $@.$$$$ $@

$(ALONE:%=$(OUT)/%-clang): $(OUT)/%-clang: $$(addprefix $(OUT)/clang/,$$(addsuffix .o,$$($$*)))
	@clang $^ -o $@.$$$$ && mv $@.$$$$ $@

# the program in the comment of gauge.h: its lines are indented by five spaces
$(OUT)/shortest.c: include/gauge.h
	@mkdir -p $(@D)
	@sed -n '/^ \*     #include "gauge.h"/,/^ \*     }$$/s/^ \*     //p' $< >$@.$$$$ && mv $@.$$$$ $@

# the recipes in the comment of gauge_host.h, likewise
$(OUT)/recipes.c: include/gauge_host.h
	@mkdir -p $(@D)
	@sed -n 's/^ \*     //p' $< >$@.$$$$ && mv $@.$$$$ $@

# a header, the recipes and the first example as whoever includes or copies them compiles them: in C and C++, by gcc and, where it is there, by clang.
# Of clang's warnings all that are not on compatibility with older languages, padding or buffers.
WHOEVER = -pedantic -Wall -Wextra -Wconversion -Wsign-conversion -Wshadow -Werror -Iinclude -fsyntax-only
EVERYTHING = -Weverything -Wno-padded -Wno-c++98-compat -Wno-c++98-compat-pedantic -Wno-unknown-warning-option -Wno-unsafe-buffer-usage \
    -Wno-pre-c11-compat -Wno-pre-c2x-compat -Werror -Iinclude -fsyntax-only
in_all = tools/cc -x c -std=c99 $(WHOEVER) $(1) && g++ -x c++ -std=c++11 $(WHOEVER) $(1) && g++ -x c++ -std=c++17 $(WHOEVER) $(1)
by_clang = clang -x c -std=c99 $(2) $(1) && clang++ -x c++ -std=c++17 $(2) $(1)
with_clang = if command -v clang++ >/dev/null; then $(by_clang); fi

$(OUT)/%.h.alone: include/%.h include/gauge.h tests/build.mk
	@mkdir -p $(@D)
	@echo '#include "$*.h"' >$@.$$$$.c && $(call in_all,$@.$$$$.c) && $(call with_clang,$@.$$$$.c,$(EVERYTHING)); \
	    status=$$?; rm -f $@.$$$$.c; exit $$status
	@touch $@

$(OUT)/first.alone: examples/first.c $(HEADERS) tests/build.mk
	@mkdir -p $(@D)
	@$(call in_all,$<) && $(call with_clang,$<,$(WHOEVER))
	@touch $@

$(OUT)/recipes.alone: $(OUT)/recipes.c $(HEADERS) tests/build.mk
	@$(call in_all,$<) && $(call with_clang,$<,$(WHOEVER))
	@touch $@

# tools/lib leaves the archive alone where nothing that it is made of has changed
target/libgauge.a: always
	@tools/lib
