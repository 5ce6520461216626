# What is for C, and the tests. The Rattle kit (rt) proves and builds the archives; the rest needs a C compiler, Python for tests/*.py
# and fixtures/, and an archive that is there.
#
#   make            the archive for x86-64, target/staticlib/libarboricx.a, where something changed: a few minutes the first time
#   make archives   the archives for x86-64, AArch64 and 32-bit ARM, and WebAssembly, in target/archives: half a minute more
#   make dist       all that a team needs, with no kit, in target/dist/arboricx-VERSION.tar
#   make host       target/c/arboricx, the tool: checks, lists and plays bundles
#   make test       the outside tests, as the gate runs them: about two minutes
#   make test-full  250,000 cases, and 50,000 with sanitizers; SEED=2 for others
#   make test-arm   the outside tests on AArch64 and 32-bit ARM, by cross compilers and qemu-user
#   make test-wasm  recorded calls made again on WebAssembly, by node
#   make stack      the stack that each call takes, linked in each way
#   make bench      the archive beside plain C, by $(CC) and by clang; ROUNDS=5 for a quick look
#   make index      docs/GUARANTEES.md against the tree
#   make believe    docs/TRUST.md against the definitions that a reader has to believe
#
# Only `make`, `make archives` and `make dist` prove what changed. The others take the archive that is there, by ARCHIVE=PATH another one, and build it only
# where there is none; archives for other processors, and the program check_bundle, they only take.

OUT = target/c
BUILT = target/staticlib/libarboricx.a
ARCHIVE = $(BUILT)
ARCHIVES = target/archives
PROGRAM = crates/check_bundle/out/check_bundle
SEED = 1
ROUNDS = 61
STRICT = -Wall -Wextra -Wpedantic -Iinclude -Itests
CFLAGS = -std=c11 -O2 $(STRICT)
SANITIZE = -std=c11 -O1 -g -fsanitize=address,undefined -fno-sanitize-recover=all $(STRICT)
TESTS = $(wildcard tests/*.c)
BENCH = bench/bench.c bench/bench_bundles.c bench/plain_c.c bench/plain_run.c bench/program.c bench/race.c bench/workloads.c tests/reference.c
PLAIN_C = bench/plain_c.c bench/plain_run.c tests/reference.c
CLANG := $(shell command -v clang)
KIT := $(shell command -v rt)
HEADERS = $(wildcard include/*.h tests/*.h bench/*.h)

.PHONY: archive archives dist host older test test-full test-arm test-wasm index believe header example tool faults fixtures packed stack stacked bench
.DEFAULT_GOAL = archive
.NOTPARALLEL:

# ---- what the kit proves and builds

# A crate and the crates that it stands on, by crates.txt; and all that they are proved from. A folder counts as its files do:
# it changes where one is taken away. The crate's own folder does not, as the kit keeps its work in out/ there.
crates_of = $(shell awk -F: -v crate=$(1) '\
    function visit(c, d, i, n) { if (seen[c]++) return; n = split(deps[c], d, " "); for (i = 1; i <= n; i++) if (d[i] in deps) visit(d[i]); print c } \
    /^[a-z]/ { split($$1, name, " "); deps[name[1]] = $$2 } END { visit(crate) }' crates.txt)
sources = crates.txt $(shell find $(patsubst %,crates/%,$(1)) \( -path '*/must-fail' -o -path '*/out' \) -prune -o ! -regex 'crates/[^/]*' -print)

ARCHIVE_CRATES := $(call crates_of,arboricx)

# Runs commands of rt and shows what it says of each crate as it comes; the prover's own words are in the log, which is shown
# where one fails.
show_proving = { { $(1); } && echo all proved; } 2>&1 | tee $(2) | sed -un '/unchanged since/d; s/^rt: //p'; \
    [ "$$(tail -n 1 $(2))" = 'all proved' ] || { cat $(2); exit 1; }
need_kit = $(if $(KIT),,{ echo '$(1), and building it needs the Rattle kit: rt is not on the path.'; exit 1; })

# When it was last built: an archive that is there has no rule to be made anew by, so that nothing but this waits for a proof.
BUILD = $(OUT)/archive.built
archive: $(BUILD)
FORCE:

# The crates below it are proved first, where they have changed. Any x86-64 processor is to run it.
$(BUILD): $(call sources,$(ARCHIVE_CRATES)) $(if $(wildcard $(BUILT)),,FORCE)
	@$(call need_kit,There is no archive of these sources)
	@mkdir -p $(OUT)
	@echo 'Proving $(words $(ARCHIVE_CRATES)) crates for the archive: a few minutes the first time, later only those that changed.'
	@mkdir -p $(dir $(BUILT))
	@$(call show_proving,(cd crates/arboricx && rt lib --cpu=x86-64) && cp crates/arboricx/out/libarboricx.a $(BUILT),$(OUT)/archive.log)
	@touch $@

$(BUILT):
	@$(call need_kit,There is no archive at $@)
	@$(MAKE) --no-print-directory archive

ifneq ($(ARCHIVE),$(BUILT))
$(ARCHIVE):
	@echo 'There is no archive at $@.'; exit 1
endif

# Which archive is used: programs are linked again where it is another one, whatever its time is.
USED = $(OUT)/archive.used
$(USED): $(ARCHIVE) FORCE
	@mkdir -p $(OUT)
	@sha256sum $(ARCHIVE) >$@.new
	@if cmp -s $@ $@.new; then rm $@.new; else mv $@.new $@; fi

# ---- for other processors, and for those who have no kit

archives: archive
	packaging/archives.sh $(ARCHIVES)

dist: archives
	packaging/dist.sh $(ARCHIVES) target/dist

# The last of them that is built.
LAST = $(ARCHIVES)/wasm32/arboricx.wasm

# ---- the host

host: older $(OUT)/arboricx

$(OUT)/arboricx: host/arboricx.c $(HEADERS) $(USED)
	@mkdir -p $(OUT)
	$(CC) $(CFLAGS) -Wconversion -Werror $< $(ARCHIVE) -Wl,-z,now -o $@

# Says so where an archive that is there is not that of the sources.
older: $(ARCHIVE)
	@for built in $(BUILT) $(LAST); do \
	    [ ! -e $$built ] || [ -z "$$(find crates.txt $(patsubst %,crates/%,$(ARCHIVE_CRATES)) \( -path '*/must-fail' -o -path '*/out' \) -prune -o ! -regex 'crates/[^/]*' -newer $$built -print | head -n 1)" ] \
	        || echo "Note: $$built is older than its sources: make archives builds it anew."; \
	done

# ---- the outside tests

$(OUT)/compare: $(TESTS) $(HEADERS) $(USED)
	@mkdir -p $(OUT)
	$(CC) $(CFLAGS) $(TESTS) $(ARCHIVE) -o $@

$(OUT)/compare-sanitized: $(TESTS) $(HEADERS) $(USED)
	@mkdir -p $(OUT)
	$(CC) $(SANITIZE) $(TESTS) $(ARCHIVE) -o $@

$(OUT)/compare-faults: $(TESTS) $(HEADERS) $(USED)
	@mkdir -p $(OUT)
	$(CC) $(CFLAGS) -DREFERENCE_FAULTS $(TESTS) $(ARCHIVE) -o $@

ALL = older index believe header example tool packed stacked faults fixtures $(OUT)/compare $(OUT)/compare-sanitized

test: $(ALL)
	$(OUT)/compare --seed $(SEED) --count 40000
	$(OUT)/compare-sanitized --seed $(SEED) --count 8000

test-full: $(ALL)
	$(OUT)/compare --seed $(SEED) --count 250000 --zeros 1
	$(OUT)/compare-sanitized --seed $(SEED) --count 50000

# The index of guarantees names what is there, and all of it.
index:
	python3 tests/guarantees.py

# The list of what a reader has to believe is what the demands come to.
believe:
	python3 tests/believe.py

# The header, the archive and the source agree in what they declare.
header: $(ARCHIVE)
	python3 tests/header.py $(ARCHIVE)

# The example is the one of README.md, builds, and says what it is to say.
example: $(ARCHIVE)
	sh tests/example.sh $(ARCHIVE) $(OUT)/example

# The tool says what it is to say of sound, refused, missing and unreadable files, and tells where a wrong archive differs.
$(OUT)/arboricx-wrong: tests/host/tool_wrong.c host/arboricx.c $(HEADERS) $(USED)
	@mkdir -p $(OUT)
	$(CC) $(CFLAGS) $< $(ARCHIVE) -o $@

tool: $(OUT)/arboricx $(OUT)/arboricx-wrong
	sh tests/tool.sh $(OUT)/arboricx $(OUT)/arboricx-wrong

# A reference that is wrong in one way is found out; each way is tried.
faults: $(OUT)/compare-faults
	sh tests/faults.sh $(OUT)/compare-faults

# The stored inputs and outputs of the test programs are those that their generators make.
fixtures:
	sh tests/fixtures.sh $(OUT)/fixtures

# What `make dist` packs, out of the archives that are there, is whole and builds where there is no kit.
packed:
	@if [ -e $(LAST) ]; then sh tests/dist.sh $(ARCHIVES) $(OUT)/dist; \
	    else echo 'There is no $(LAST), which make archives builds: what make dist packs is not tried.'; fi

# On other processors, with the archives that are there.
test-arm: older
	sh tests/arm.sh $(ARCHIVES) $(OUT)/arm $(SEED)

test-wasm: older $(OUT)/compare
	sh tests/wasm.sh $(ARCHIVES)/wasm32/arboricx.wasm $(OUT)/compare $(OUT)/wasm.record $(SEED)

# ---- the stack: a program that only measures, so that the archive's first call of memset is the first of the process

$(OUT)/stack-inputs: bench/stack_inputs.c bench/bench_bundles.c bench/workloads.c tests/reference.c $(HEADERS) $(USED)
	@mkdir -p $(OUT)
	$(CC) $(CFLAGS) -D_DEFAULT_SOURCE $(filter %.c,$^) $(ARCHIVE) -o $@

$(OUT)/stack.inputs: $(OUT)/stack-inputs
	$< $@

$(OUT)/stack-%: bench/stack.c $(HEADERS) $(USED)
	$(CC) $(CFLAGS) $< $(ARCHIVE) -pthread $(if $(filter static,$*),-static,-Wl,-z,$*) -o $@

# Static only where there is a C library for it.
WAYS := now lazy $(shell echo 'int main(void) { return 0; }' | $(CC) -static -x c - -o /dev/null 2>/dev/null && echo static)
stack: older $(OUT)/stack.inputs $(patsubst %,$(OUT)/stack-%,$(WAYS))
	@for way in $(WAYS); do $(OUT)/stack-$$way $(OUT)/stack.inputs $$way || exit 1; echo; done

stacked: $(OUT)/stack.inputs $(patsubst %,$(OUT)/stack-%,$(WAYS))
	@for way in $(WAYS); do $(OUT)/stack-$$way $(OUT)/stack.inputs $$way >$(OUT)/stack.txt || { cat $(OUT)/stack.txt; exit 1; }; done
	@echo 'stack: each call keeps to what the header says, linked in each way'

# ---- the bench

$(OUT)/bench: $(BENCH) $(HEADERS) $(USED) $(if $(CLANG),$(OUT)/plain_c_clang.o)
	@mkdir -p $(OUT)
	$(CC) $(CFLAGS) -D_DEFAULT_SOURCE -DFLAGS='"-O2"' $(if $(CLANG),-DBENCH_CLANG) $(BENCH) $(filter %.o,$^) $(ARCHIVE) -Wl,-z,now -o $@

# Plain C once more, by clang at -O3: one object, of which only the table of its calls is seen.
$(OUT)/plain_c_clang.o: $(PLAIN_C) $(HEADERS)
	@mkdir -p $(OUT)
	$(CLANG) -std=c11 -O3 $(STRICT) -DFLAGS='"-O3"' -DTABLE=plain_c_clang -r -nostdlib $(PLAIN_C) -o $@
	objcopy --keep-global-symbol=plain_c_clang $@

bench: older $(OUT)/bench
	@$(if $(CLANG),,echo 'There is no clang here: its column is left out.')
	@[ -x $(PROGRAM) ] || echo 'There is no $(PROGRAM), which rt run in crates/check_bundle builds: it is left out.'
	$(OUT)/bench $(ROUNDS) $(wildcard $(PROGRAM))
	sh bench/size.sh $(ARCHIVE)
