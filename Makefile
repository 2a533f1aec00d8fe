# C programs over the proved archive, built and run with the toolchain alone: its compiler, its linker, its C library and,
# where the machine is not x86-64, its emulator, if it has one.
KIT := $(patsubst %/START-HERE.md,%,$(shell rt doc))
TOOL := $(KIT)/toolchain
LIB := $(TOOL)/lib
LOADER := $(LIB)/ld-linux-x86-64.so.2
QEMU := $(TOOL)/bin/qemu-x86_64
# The plain processor: on the others the C library clears memory byte by byte, which is fast everywhere but here.
EMULATOR := $(if $(filter x86_64,$(shell uname -m)),,$(QEMU) -cpu qemu64)
RUN := $(EMULATOR) $(LOADER) --library-path $(LIB)
CLANG := $(TOOL)/bin/clang --target=x86_64-unknown-linux-gnu -O2 -fPIC -Wall -Wextra -Wpedantic -Iinclude -Ic -isystem c/freestanding
CC := $(CLANG) -std=c99
CXX := $(CLANG) -x c++ -std=c++11
LINK := $(TOOL)/bin/ld.lld -pie --dynamic-linker $(LOADER)
BEFORE := $(LIB)/Scrt1.o $(LIB)/crti.o $(LIB)/crtbeginS.o
AFTER := $(LIB)/libc.so.6 $(LIB)/libc_nonshared.a $(LIB)/libgcc.a $(LIB)/crtendS.o $(LIB)/crtn.o
OUT := target/c
OBJ := $(OUT)/obj
ARCHIVE := target/libildorzhen.a
HEADERS := include/ildorzhen.h $(wildcard c/*.h c/*/*.h)
PLAIN := $(addprefix $(OBJ)/plain/,table.o operators.o least.o plan.o text.o search.o)
DRAWN := $(addprefix $(OBJ)/compare/,generate.o plans.o)
COMPARE := $(addprefix $(OBJ)/,compare.o compare/tally.o compare/search.o) $(DRAWN)

.PHONY: march compare bench test archive header programs help

## march     the console on the night of March, and README's example, in C over the archive; each says what is stored
# Header and programs are C++ too.
march: header $(OUT)/march $(OUT)/example
	$(CXX) -Werror -fsyntax-only c/march.c c/words.c c/example.c
	$(RUN) $(OUT)/march > $(OUT)/march.out
	@cat $(OUT)/march.out
	@diff c/march.out $(OUT)/march.out && echo 'march: as in c/march.out'
	$(RUN) $(OUT)/example > $(OUT)/example.out
	@cat $(OUT)/example.out
	@diff c/example.out $(OUT)/example.out && echo 'example: as in c/example.out'

## test      the gate: every crate proved, every must-fail edit refused, every program run
test:
	.ci/run

## archive   target/libildorzhen.a, for C to link, from the proved source; that it needs memcpy and memset alone is tried
archive:
	cd crates/console_c && rt lib --cpu x86-64
	mkdir -p $(OUT)
	cp crates/console_c/out/libconsole_c.a $(ARCHIVE)
	@test "$$($(TOOL)/bin/llvm-ar t $(ARCHIVE) | wc -l)" -eq 1
	$(TOOL)/bin/ld.lld --entry=0 --defsym=memcpy=0 --defsym=memset=0 --whole-archive $(ARCHIVE) -o $(OUT)/alone

## header    the C header, the words and README held against the source; wrong headers, each of which must be told
header:
	c/check/run
	c/check/wrong

## compare   every call against documents 01 and 02 in plain C, on generated inputs
compare: header $(OUT)/compare
	$(RUN) $(OUT)/compare

## bench     x86-64 instructions of each job, the library's against the plain C's
bench: $(addprefix $(OUT)/,bench-ours bench-plain bench-searches plain-emit plain-verify plain-find) programs
	c/bench/run $(QEMU) $(LOADER) $(LIB) $(OUT)/bench-ours $(OUT)/bench-plain $(OUT)/bench-searches \
	    target/bin/emit $(OUT)/plain-emit target/bin/verify $(OUT)/plain-verify target/bin/find $(OUT)/plain-find

## programs  target/bin/verify, target/bin/emit and target/bin/find, proved and run on their stored input
programs:
	mkdir -p target/bin
	for name in verify emit find; do (cd crates/$$name && rt run --cpu x86-64 < stdin | cmp - stdout) && cp crates/$$name/out/$$name target/bin || exit 1; done

## help      this list
help:
	@sed -n 's/^## //p' Makefile

$(OBJ)/%.o: c/%.c $(HEADERS)
	mkdir -p $(@D)
	$(CC) -c $< -o $@

$(OUT)/compare: $(COMPARE) $(PLAIN) archive
	$(LINK) -o $@ $(BEFORE) $(COMPARE) $(PLAIN) $(ARCHIVE) $(AFTER)

$(OUT)/bench-ours: $(OBJ)/bench/ours.o archive
	$(LINK) -o $@ $(BEFORE) $< $(ARCHIVE) $(AFTER)

$(OUT)/bench-plain: $(OBJ)/bench/plain.o $(PLAIN)
	$(LINK) -o $@ $(BEFORE) $^ $(AFTER)

$(OUT)/bench-searches: $(OBJ)/bench/searches.o $(DRAWN) $(PLAIN)
	$(LINK) -o $@ $(BEFORE) $^ $(AFTER)

$(OUT)/plain-%: $(OBJ)/plain/%.o $(PLAIN)
	$(LINK) -o $@ $(BEFORE) $^ $(AFTER)

$(OUT)/%: $(OBJ)/%.o $(OBJ)/words.o archive
	$(LINK) -o $@ $(BEFORE) $< $(OBJ)/words.o $(ARCHIVE) $(AFTER)
