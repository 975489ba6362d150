# make fuzz [SECONDS=60]: builds the fuzz harness over the library's entries and runs it, natively on x86-64 (docs/FUZZING.md).
# It needs clang with its fuzzer and sanitizer runtime (Debian: clang libclang-rt-14-dev), objdump, nm and python3.

LIB ?= target/staticlib/libseamkettle.a
FUZZ_CC ?= clang
FUZZ_CFLAGS ?= -std=gnu11 -g -O1 -Wall -Wextra
SECONDS ?= 60
FUZZ := target/fuzz

.PHONY: fuzz fuzz-build

# No position independence: tests/fuzz/blocks reads the addresses of the library's code off the linked harness.
FUZZ_FLAGS := $(FUZZ_CFLAGS) -D_GNU_SOURCE -fno-pie -fsanitize=fuzzer,address -Iinclude

$(FUZZ)/entries.o: tests/fuzz/entries.c tests/fuzz/lent.h tests/fuzz/rules.h tests/fuzz/blocks.h include/seamkettle.h
	mkdir -p $(FUZZ)
	$(FUZZ_CC) $(FUZZ_FLAGS) -c tests/fuzz/entries.c -o $@

$(FUZZ)/entries: $(FUZZ)/entries.o tests/fuzz/blocks $(LIB)
	$(FUZZ_CC) $(FUZZ_FLAGS) -no-pie $(FUZZ)/entries.o $(LIB) -o $@
	tests/fuzz/blocks $@ $(LIB) > $(FUZZ)/blocks.txt

$(FUZZ)/corpus: tests/fuzz/corpus crates/replay/stdin
	rm -rf $@
	tests/fuzz/corpus crates/replay/stdin $@

fuzz-build: $(FUZZ)/entries $(FUZZ)/corpus

# What is found stays in target/fuzz/found and is tried first the next time; an input that fails goes to target/fuzz/failed.
fuzz: fuzz-build
	mkdir -p $(FUZZ)/found $(FUZZ)/failed
	KETTLE_BLOCKS=$(FUZZ)/blocks.txt KETTLE_COVERED=$(FUZZ)/covered nice $(FUZZ)/entries -max_total_time=$(SECONDS) -max_len=2048 \
	    -timeout=60 -print_final_stats=1 -dict=tests/fuzz/text.dict -artifact_prefix=$(FUZZ)/failed/ $(FUZZ)/found $(FUZZ)/corpus
	grep -v '^not reached' $(FUZZ)/covered

# make fuzz-faults: each fault of tests/fuzz/faults.c must be found by the seeds alone.
FAULTS := $(shell seq 33)
FAULTY := kettle_assemble kettle_load kettle_step kettle_run kettle_step_back kettle_set_register kettle_protect kettle_device kettle_read \
    kettle_list kettle_print kettle_text
.PHONY: fuzz-faults
fuzz-faults: $(FUZZ)/corpus $(FUZZ)/entries.o $(LIB)
	@set -e; for n in $(FAULTS); do \
	    $(FUZZ_CC) $(FUZZ_FLAGS) -no-pie -DFAULT=$$n $(FAULTY:%=-Wl,--wrap=%) tests/fuzz/faults.c $(FUZZ)/entries.o $(LIB) \
	        -o $(FUZZ)/faulty; \
	    if nice $(FUZZ)/faulty -runs=0 -artifact_prefix=$(FUZZ)/faulty- $(FUZZ)/corpus >$(FUZZ)/faulty.log 2>&1; then \
	        echo "fault $$n is not found" >&2; exit 1; \
	    fi; \
	    echo "fault $$n: $$(grep -m 1 -E 'not so|ERROR: AddressSanitizer' $(FUZZ)/faulty.log)"; \
	done
	@rm -f $(FUZZ)/faulty*
