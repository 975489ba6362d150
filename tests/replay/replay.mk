# make test-replay: the replay language through the C entries (tests/replay/run says what is compared). Included by the Makefile.
REPLAY_SEED ?= 1
REPLAY_SIZE ?= 1

REPLAY_FLAGS = -std=c99 -Wall -Wextra -pedantic -Wconversion -Iinclude
REPLAY_SOURCES = $(addprefix tests/replay/,through_c.c host.c machine.c bytes.c texts.c sources.c fields.c lent.c)
REPLAY_HEADERS = $(addprefix tests/replay/,host.h fields.h lent.h) include/seamkettle.h

target/c/through_c: $(REPLAY_SOURCES) $(REPLAY_HEADERS) $(LIB)
	@mkdir -p $(@D)
	$(CC) $(REPLAY_FLAGS) $(CFLAGS) $(LDFLAGS) $(STATIC) $(REPLAY_SOURCES) $(LIB) -o $@

.PHONY: test-replay
test-replay: target/c/through_c
	RUN_WITH='$(RUN)' tests/replay/run target/c/through_c $(REPLAY_SEED) $(REPLAY_SIZE)
