# make             prove and write the static library, then run the C tests of its exports
# make test        prove everything, then all C tests that need no original
# make demo        three guest programs on a simulated clock; prints their timeline
# make growth      how the time of a call grows with threads, objects and handles
# make hostile     how long question 2 takes on blocks made to be slow, beside the slowest sound one
# make wrong-kernels     changes of the definitions that the theorem has to refuse
# make differential, record, flips, bench, bench-original, profile     need cargo and ORIGINAL, a copy of the original's source
CC = gcc
CFLAGS = -std=c11 -O2 -Wall -Wextra -Iinclude

# the folder that holds crates/zakuro-core and crates/zakuro-cpu of the original
ORIGINAL = ../shared/docs/src
# the first sequence, how many of them, and how many blocks are flipped
SEED = 1
COUNT = 200
BLOCKS = 8
# rounds of the benchmark beside the original
ROUNDS = 101

# another library may be given in place of the proved one
PROVED = crates/host/out/libhost.a
KERNEL_LIB = $(PROVED)

C = target/c
DRIVER = oracle/target/debug/driver
BUILD = KERNEL_LIB=$(abspath $(KERNEL_LIB)) cargo build --offline --manifest-path oracle/Cargo.toml --target-dir oracle/target
HOST = host check lent fault exports fresh_block made_block guest_call fresh_start next_event create_thread end_thread schedule asks \
    dispatch guest_objects collect cases guard refusals twelve
FLIPS = flips rules fresh_block
BENCH = bench/bench bench/clock bench/host bench/guest_calls bench/stack tests/made_block tests/fresh_block
GROWTH = bench/growth bench/clock bench/host tests/made_block tests/fresh_block
HOSTILE = bench/hostile bench/clock bench/host tests/made_block tests/fresh_block

all: host-test

test:
	rt all check
	$(MAKE) host-test flip-fresh

staticlib:
	cd crates/host && rt lib

$(PROVED): staticlib

host-test: $(C)/host $(C)/demo
	sh tests/exports.sh $(KERNEL_LIB)
	$(C)/demo | cmp - demo/timeline.txt
	$(C)/host

demo: $(C)/demo
	$(C)/demo

# only the fresh block, which needs no file
flip-fresh: $(C)/flips
	$(C)/flips

flips: $(C)/flips blocks
	$(C)/flips target/blocks/*.block

bench: $(C)/bench blocks
	sh bench/frames.sh $(KERNEL_LIB) > $(C)/frames.txt
	$(C)/bench $(C)/frames.txt target/blocks/full.block target/blocks/busy.block

# how the time grows with threads, objects and handles
growth: $(C)/growth
	$(C)/growth

# question 2 on blocks made to be slow; fails only by an answer
hostile: $(C)/hostile
	$(C)/hostile

bench-original: original $(KERNEL_LIB)
	$(BUILD) --profile timed -p driver
	oracle/target/timed/driver bench --rounds $(ROUNDS)

# instructions and copied bytes of a pass by function
profile: $(C)/pass $(C)/copies blocks
	sh bench/profile.sh $(C)/pass $(C)/copies target/blocks/full.block target/blocks/busy.block

wrong-kernels:
	sh wrong/run.sh

original:
	ORIGINAL=$(abspath $(ORIGINAL)) sh oracle/scripts/copy-original.sh

oracle: original $(KERNEL_LIB)
	$(BUILD) -p oracle -p driver

differential: oracle
	$(DRIVER) compare --seed $(SEED) --count $(COUNT)

# the sample that crates/replay replays, and what it is to write
record: oracle
	$(DRIVER) record crates/replay

blocks: oracle
	$(DRIVER) blocks target/blocks $(BLOCKS)

$(C)/host: $(HOST:%=$(C)/obj/tests/%.o) $(KERNEL_LIB)
	$(CC) -o $@ $^

$(C)/demo: $(C)/obj/demo/demo.o $(KERNEL_LIB)
	$(CC) -o $@ $^

$(C)/flips: $(FLIPS:%=$(C)/obj/tests/%.o) $(KERNEL_LIB)
	$(CC) -o $@ $^

$(C)/bench: $(BENCH:%=$(C)/obj/%.o) $(KERNEL_LIB)
	$(CC) -o $@ $^

$(C)/growth: $(GROWTH:%=$(C)/obj/%.o) $(KERNEL_LIB)
	$(CC) -o $@ $^

$(C)/hostile: $(HOSTILE:%=$(C)/obj/%.o) $(KERNEL_LIB)
	$(CC) -o $@ $^

$(C)/pass: $(C)/obj/bench/pass.o $(KERNEL_LIB)
	$(CC) -o $@ $^

$(C)/copies: $(C)/obj/bench/pass.o $(C)/obj/bench/copies.o $(KERNEL_LIB)
	$(CC) -no-pie -Wl,--wrap=memcpy,--wrap=memmove,--wrap=memset -o $@ $^

$(C)/obj/%.o: %.c $(wildcard include/*.h tests/*.h bench/*.h)
	@mkdir -p $(@D)
	$(CC) $(CFLAGS) -c -o $@ $<

clean:
	rm -rf target oracle/target crates/*/out

.PHONY: all test staticlib host-test demo flip-fresh flips bench growth hostile bench-original profile wrong-kernels original oracle differential record blocks clean
