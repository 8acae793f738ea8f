/* Calls every function of include/hda.h from C and checks a few answers: frames played and captured, a message sent, openings refused by a write and by time, a state saved and restored, one with a crowded
 * list refused and taken with the list emptied, slices of length 0 at NULL, a stall that is caught up, the counts between which a timer with jitter ends, the rate of every format word, frames written as a WAV
 * file and read back, its header changed byte by byte. */
#include "hda.h"
#include <stdio.h>
#include <string.h>

static uint8_t device[HDA_DEVICE_BYTES], host[HDA_HOST_BYTES], lists[HDA_LISTS_BYTES], queues[HDA_QUEUES_BYTES], memory[65536];
static uint8_t state[HDA_STATE_BYTES_MAX];
/* Scratch of hda_advance_bounds, each part longer than it must be. */
static uint8_t more_lists[HDA_LISTS_BYTES + 3], more_queues[HDA_QUEUES_BYTES + 3], more_memory[sizeof memory + 3];

#define RECORDS device, sizeof device, host, sizeof host, lists, sizeof lists, queues, sizeof queues
#define HOST host, sizeof host, queues, sizeof queues
#define LISTS lists, sizeof lists
#define QUEUES queues, sizeof queues
#define MEMORY memory, sizeof memory
#define SCRATCH more_lists, sizeof more_lists, more_queues, sizeof more_queues, more_memory, sizeof more_memory
#define NOTHING NULL, 0

static int checks, failures;

static void check(int line, const char *what, uint64_t found, uint64_t expected)
{
    checks++;
    if (found == expected)
        return;
    failures++;
    fprintf(stderr, "calls.c:%d: %s is %llu, not %llu\n", line, what, (unsigned long long)found, (unsigned long long)expected);
}

#define CHECK(found, expected) check(__LINE__, #found, (uint64_t)(found), (uint64_t)(expected))

/* The low `width` bytes of a value to the registers. */
static uint64_t write_register(uint64_t offset, uint64_t value, size_t width)
{
    uint8_t bytes[8];
    for (size_t i = 0; i < width; i++)
        bytes[i] = (uint8_t)(value >> 8 * i);
    return hda_write(RECORDS, memory, sizeof memory, offset, bytes, width);
}

/* What stands in bytes: `width` of them from `place` on, lowest first. */
static uint64_t stands(const uint8_t *bytes, size_t place, size_t width)
{
    uint64_t value = 0;
    for (size_t i = width; i > 0; i--)
        value = value << 8 | bytes[place + i - 1];
    return value;
}

static uint64_t read_register(uint64_t offset, size_t width)
{
    uint8_t bytes[8] = {0};
    CHECK(hda_number(hda_read(RECORDS, offset, bytes, width)), HDA_DONE);
    return stands(bytes, 0, width);
}

/* A stream's descriptor list at `list`: one flagged buffer of 1,024 bytes at `buffer`. Then its registers, and RUN with interrupts on completion. */
static uint64_t start(unsigned stream, uint32_t list, uint32_t buffer)
{
    uint64_t base = 0x80 + 32 * stream;
    uint8_t descriptor[16] = {(uint8_t)buffer, (uint8_t)(buffer >> 8), 0, 0, 0, 0, 0, 0, 0, 4, 0, 0, 1};
    memcpy(memory + list, descriptor, sizeof descriptor);
    write_register(base + 0x12, 0x0011, 2);
    write_register(base + 0x08, 1024, 4);
    write_register(base + 0x18, list, 8);
    write_register(base + 0x02, (stream + 1) << 4, 1);
    return write_register(base, 6, 1);
}

/* A command to the codec by the immediate registers; its reply. */
static uint64_t command(uint32_t word)
{
    write_register(0x60, word, 4);
    write_register(0x68, 1, 1);
    return read_register(0x64, 4);
}

static void made(void)
{
    CHECK(hda_number(hda_new(device, sizeof device, lists, sizeof lists - 1, queues, sizeof queues, 1)), HDA_LENT_SPACE);
    CHECK(hda_number(hda_new(device, sizeof device - 1, lists, sizeof lists, queues, sizeof queues, 1)), HDA_STATE);
    CHECK(hda_number(hda_config_read(RECORDS, 0)), HDA_STATE);
    CHECK(hda_new(device, sizeof device, lists, sizeof lists, queues, sizeof queues, 1), HDA_DONE);
    CHECK(hda_host_new(HOST), HDA_DONE);
    CHECK(hda_value(hda_config_read(RECORDS, 0)), 0x293e8086);
    CHECK(hda_value(hda_config_read(RECORDS, 64)), 0);
}

static void played(void)
{
    uint8_t command_bytes[] = {6}, vector[] = {0xe0, 0xfe, 0, 0, 0, 0, 0, 0, 0x41, 0x40}, on[] = {1}, frames[2048];
    memset(frames, 7, sizeof frames);
    CHECK(hda_number(hda_config_write(RECORDS, memory, sizeof memory, 1, 0, command_bytes, 1)), HDA_DONE);
    CHECK(hda_number(hda_config_write(RECORDS, memory, sizeof memory, 0x64 / 4, 0, vector, sizeof vector)), HDA_DONE);
    CHECK(hda_number(hda_config_write(RECORDS, memory, sizeof memory, 0x60 / 4, 2, on, 1)), HDA_DONE);
    write_register(0x08, 0x101, 4);
    write_register(0x20, 0xc0000003, 4);
    CHECK(command(0x000f0000), 0x1af40022);
    /* Node 2 plays stream tag 2, node 4 captures tag 1, both at 48,000 and unity gain. */
    CHECK(command(0x00270620), 0);
    CHECK(command(0x00220011), 0);
    CHECK(command(0x0023b04a), 0);
    CHECK(command(0x00470610), 0);
    CHECK(command(0x00420011), 0);
    CHECK(command(0x0043704a), 0);
    memset(memory + 0x1000, 0x5a, 1024);
    memset(memory + 0x2000, 0xff, 1024);
    start(0, 0x400, 0x2000);
    start(1, 0x500, 0x1000);
    CHECK(hda_value(hda_feed(HOST, frames, 16)), 4);
    CHECK(hda_number(hda_feed(HOST, frames, 15)), HDA_ODD_FRAMES);

    /* 256 frames at 48,000 are 5,333,334 nanoseconds: capture wraps its buffer and completes, which sends the message. */
    uint64_t reply = hda_advance(RECORDS, memory, sizeof memory, 5333334);
    CHECK(hda_number(reply), HDA_DONE);
    CHECK(hda_level(reply), 0);
    CHECK(hda_sends_message(reply), 1);
    CHECK(hda_message_address(device), 0xfee0);
    CHECK(hda_message_data(device), 0x4041);
    CHECK(read_register(0x83, 1), 0x24);
    CHECK(memory[0x2000 + 15], 7);
    CHECK(memory[0x2000 + 16], 0);
    CHECK(memory[0x2000 + 1023], 0);
    CHECK(hda_value(hda_pull(HOST, frames, sizeof frames)), 256);
    CHECK(frames[0], 0x5a);
    CHECK(frames[1023], 0x5a);
    CHECK(hda_value(hda_pull(HOST, frames, sizeof frames)), 0);
    /* What was pulled is heard: the next turn retires the playback's completion. */
    CHECK(hda_number(hda_advance(RECORDS, memory, sizeof memory, 0)), HDA_DONE);
    CHECK(read_register(0xa3, 1), 0x24);
    /* Without messages the interrupt is a level. */
    on[0] = 0;
    CHECK(hda_level(hda_config_write(RECORDS, memory, sizeof memory, 0x60 / 4, 2, on, 1)), 1);
    CHECK(hda_level(write_register(0x83, 4, 1)), 1);
    CHECK(hda_level(write_register(0xa3, 4, 1)), 0);
}

static void refused(void)
{
    CHECK(hda_number(hda_set_playback_fails(HOST, 1)), HDA_DONE);
    CHECK(hda_number(hda_set_capture_fails(HOST, 1)), HDA_DONE);
    CHECK(hda_number(hda_set_downstream(HOST, 14336)), HDA_DONE);
    CHECK(hda_number(hda_set_downstream(HOST, 14340)), HDA_LATENCY);
    write_register(0xa0, 0, 1);
    write_register(0xa0, 2, 1);
    CHECK(read_register(0xa0, 1), 0);
    CHECK(read_register(0xa3, 1) & 0x10, 0x10);
    uint8_t other[4] = {1, 1, 1, 1};
    CHECK(hda_number(hda_bar_read(RECORDS, 1, 0, other, sizeof other)), HDA_DONE);
    CHECK(other[0] | other[3], 0);
    CHECK(hda_number(hda_bar_write(RECORDS, memory, sizeof memory, 0, 0x20, other, sizeof other)), HDA_DONE);
    CHECK(read_register(0x20, 4), 0);
    CHECK(hda_number(hda_pin_presence_changed(RECORDS, memory, sizeof memory, 3)), HDA_DONE);
}

static void saved(void)
{
    CHECK(hda_number(hda_set_paused(RECORDS, 1)), HDA_DONE);
    CHECK(hda_number(hda_save(RECORDS, state, 747)), HDA_LENT_SPACE);
    CHECK(state[0], 0);
    CHECK(hda_value(hda_save(RECORDS, state, sizeof state)), 748);
    CHECK(memcmp(state, "HDA1\1\1", 6), 0);
}

/* The state of `saved`, which is of a paused device with a running capture and a stopped playback. */
static void restored(void)
{
    uint8_t before[HDA_DEVICE_BYTES], frames[8] = {0};
    memcpy(before, device, sizeof before);
    /* Openings for capture still fail, and nothing changes. */
    CHECK(hda_number(hda_restore(RECORDS, state, 748)), HDA_HOST_CLOSED);
    CHECK(hda_number(hda_set_capture_fails(HOST, 0)), HDA_DONE);
    CHECK(hda_number(hda_restore(RECORDS, state, 747)), HDA_SHORT_STATE);
    CHECK(hda_number(hda_restore(RECORDS, state, 749)), HDA_STATE);
    state[0] = 'h';
    CHECK(hda_number(hda_restore(RECORDS, state, 748)), HDA_WRONG_MARK);
    state[0] = 'H';
    state[4] = 0;
    CHECK(hda_number(hda_restore(RECORDS, state, 748)), HDA_MICROPHONE);
    state[4] = 1;
    state[262 + 0xb2] = 0x10;
    CHECK(hda_number(hda_restore(RECORDS, state, 748)), HDA_FORMAT);
    state[262 + 0xb2] = 0x11;
    state[710] = 5;
    CHECK(hda_number(hda_restore(RECORDS, state, 748)), HDA_LIST_LENGTH);
    state[710] = 1;
    CHECK(hda_number(hda_restore(RECORDS, state, 748)), HDA_LIST_ORDER);
    state[710] = 0;
    state[681] = 1;
    CHECK(hda_number(hda_restore(RECORDS, state, 748)), HDA_STREAM);
    state[681] = 0;
    CHECK(memcmp(before, device, sizeof before), 0);
    /* The guest stops the capture, and the state brings it back. */
    write_register(0x80, 0, 1);
    CHECK(hda_value(hda_feed(HOST, frames, sizeof frames)), 0);
    CHECK(hda_number(hda_restore(RECORDS, state, 748)), HDA_DONE);
    CHECK(memcmp(before, device, sizeof before), 0);
    CHECK(hda_value(hda_feed(HOST, frames, sizeof frames)), 2);
}

/* Slices of length 0 at NULL where a call has use for none. */
static void empty(void)
{
    uint8_t frames[16];
    CHECK(hda_number(hda_set_paused(RECORDS, 0)), HDA_DONE);
    CHECK(hda_number(hda_set_playback_fails(HOST, 0)), HDA_DONE);
    CHECK(hda_number(hda_set_downstream(HOST, 0)), HDA_DONE);
    write_register(0xa0, 6, 1);
    CHECK(hda_number(hda_advance(RECORDS, MEMORY, 1000000)), HDA_DONE);
    CHECK(hda_value(hda_feed(HOST, NOTHING)), 0);
    CHECK(hda_value(hda_pull(HOST, NOTHING)), 0);
    CHECK(hda_value(hda_pull(HOST, frames, sizeof frames)), 4);
    CHECK(hda_number(hda_read(RECORDS, 0, NOTHING)), HDA_DONE);
    CHECK(hda_number(hda_bar_read(RECORDS, 0, 0, NOTHING)), HDA_DONE);
    CHECK(hda_number(hda_bar_read(RECORDS, 1, 0, NOTHING)), HDA_DONE);
    CHECK(hda_number(hda_write(RECORDS, MEMORY, 0x08, NOTHING)), HDA_DONE);
    CHECK(hda_number(hda_write(RECORDS, NOTHING, 0x08, NOTHING)), HDA_DONE);
    CHECK(hda_number(hda_bar_write(RECORDS, NOTHING, 0, 0x08, NOTHING)), HDA_DONE);
    CHECK(hda_number(hda_config_write(RECORDS, NOTHING, 1, 0, NOTHING)), HDA_DONE);
    CHECK(hda_number(hda_pin_presence_changed(RECORDS, NOTHING, 3)), HDA_DONE);
    CHECK(hda_number(hda_save(RECORDS, NOTHING)), HDA_LENT_SPACE);
    CHECK(hda_number(hda_restore(RECORDS, NOTHING)), HDA_SHORT_STATE);
    CHECK(hda_number(hda_restore_emptied(RECORDS, NOTHING)), HDA_SHORT_STATE);
    /* A guest with no memory: both streams run, find no descriptor and stop with a stream error. */
    CHECK(read_register(0x80, 1) & read_register(0xa0, 1) & 2, 2);
    CHECK(hda_number(hda_advance(RECORDS, NOTHING, 1000000)), HDA_DONE);
    CHECK(read_register(0x83, 1) & 0x10, 0x10);
    CHECK(read_register(0xa3, 1) & 0x10, 0x10);
}

/* The host's side is made anew while the capture runs, and refuses to open it: so an opening is refused in hda_advance. What the stream had moved before stands. */
static void exchanged(void)
{
    uint8_t on[1] = {6};
    CHECK(hda_new(device, sizeof device, lists, sizeof lists, queues, sizeof queues, 1), HDA_DONE);
    CHECK(hda_host_new(HOST), HDA_DONE);
    CHECK(hda_number(hda_config_write(RECORDS, MEMORY, 1, 0, on, 1)), HDA_DONE);
    write_register(0x08, 1, 1);
    start(0, 0x400, 0x2000);
    CHECK(hda_number(hda_advance(RECORDS, MEMORY, 1000000)), HDA_DONE);
    CHECK(stands(device, 680 + 6, 8), 192);
    CHECK(stands(device, 680 + 14, 8), 192);
    CHECK(hda_host_new(HOST), HDA_DONE);
    CHECK(hda_number(hda_set_capture_fails(HOST, 1)), HDA_DONE);
    CHECK(hda_number(hda_advance(RECORDS, MEMORY, 1000000)), HDA_HOST_CLOSED);
    CHECK(stands(device, 680 + 6, 8), 192);
    CHECK(stands(device, 680 + 14, 8), 192);
    CHECK(read_register(0x80, 1) & 2, 0);
    CHECK(read_register(0x83, 1) & 0x10, 0x10);
}

/* Nobody pulls for two seconds: the queue is full, and as many frames are deferred as can be. Then 32 pulls of 256 frames, with no time between them, are what it takes. */
static void stalled(void)
{
    const unsigned stream = 1, pulls = 32;
    uint8_t on[1] = {6}, frames[1024];
    CHECK(hda_new(device, sizeof device, lists, sizeof lists, queues, sizeof queues, 1), HDA_DONE);
    CHECK(hda_host_new(HOST), HDA_DONE);
    CHECK(hda_number(hda_config_write(RECORDS, MEMORY, 1, 0, on, 1)), HDA_DONE);
    write_register(0x08, 1, 1);
    start(stream, 0x500, 0x1000);
    CHECK(hda_number(hda_advance(RECORDS, MEMORY, 1000000000)), HDA_DONE);
    CHECK(hda_number(hda_advance(RECORDS, MEMORY, 1000000000)), HDA_DONE);
    CHECK(hda_deferred(device, stream), 8192);
    CHECK(hda_deferred(device, 0), 0);
    CHECK(hda_deferred(device, 2), 0);
    for (unsigned pull = 1; pull <= pulls; pull++) {
        CHECK(hda_value(hda_pull(HOST, frames, sizeof frames)), 256);
        CHECK(hda_number(hda_advance(RECORDS, MEMORY, 0)), HDA_DONE);
        CHECK(hda_deferred(device, stream), 256 * (pulls - pull));
        CHECK(stands(device, 680 + 34 * stream + 6, 8), 2048 + 1024 * pull);
    }
}

/* The rate of a format word, from the list of those that the device accepts. */
static uint32_t listed_rate(unsigned word)
{
    switch (word) {
    case 0x4011: case 0x4911: case 0x5211: case 0x5b11:
        return 44100;
    case 0x0011: case 0x0911: case 0x1211: case 0x1b11:
        return 48000;
    case 0x4811: case 0x5911:
        return 88200;
    case 0x0811: case 0x1911:
        return 96000;
    }
    return 0;
}

/* Every format word: its rate, and what the device makes of it in each stream. */
static void rates(void)
{
    CHECK(hda_new(device, sizeof device, lists, sizeof lists, queues, sizeof queues, 1), HDA_DONE);
    CHECK(hda_host_new(HOST), HDA_DONE);
    write_register(0x08, 1, 1);
    for (unsigned word = 0; word <= 0xffff; word++) {
        CHECK(hda_format_rate((uint16_t)word), listed_rate(word));
        for (unsigned stream = 0; stream < 2; stream++) {
            uint64_t base = 0x80 + 32 * stream;
            write_register(base + 0x12, word, 2);
            CHECK(hda_rate(device, host, stream), 0);
            write_register(base, 2, 1);
            CHECK(hda_rate(device, host, stream), listed_rate(word));
            CHECK(host[6 + 5 * stream], listed_rate(word) != 0);
            write_register(base, 0, 1);
        }
    }
    /* There is no third stream. */
    CHECK(hda_rate(device, host, 2), 0);
}

/* Whether the bytes from `first` to before `end` are all 0xee, which tests lay before a call. */
static int untouched(const uint8_t *bytes, size_t first, size_t end)
{
    for (size_t i = first; i < end; i++)
        if (bytes[i] != 0xee)
            return 0;
    return 1;
}

/* Whether bytes are all 0. */
static int zero(const uint8_t *bytes, size_t length)
{
    for (size_t i = 0; i < length; i++)
        if (bytes[i] != 0)
            return 0;
    return 1;
}

static void lay_scratch(void)
{
    memset(more_lists, 0xee, sizeof more_lists);
    memset(more_queues, 0xee, sizeof more_queues);
    memset(more_memory, 0xee, sizeof more_memory);
}

static int scratch_untouched(void)
{
    return untouched(more_lists, 0, sizeof more_lists) && untouched(more_queues, 0, sizeof more_queues) && untouched(more_memory, 0, sizeof more_memory);
}

static int scratch_zero(void)
{
    return zero(more_lists, sizeof more_lists) && zero(more_queues, sizeof more_queues) && zero(more_memory, sizeof more_memory);
}

/* A timer that is late or early by half a millisecond: 24 to 72 frames at 48,000, of a capture and of a playback. Then a playback whose longest time ends lowest, one whose queue fills, and openings that fail,
 * which the call takes as ones that succeed. */
static void jittery(void)
{
    static uint8_t memory_before[sizeof memory], lists_before[HDA_LISTS_BYTES];
    uint8_t device_before[HDA_DEVICE_BYTES], host_before[HDA_HOST_BYTES], queues_before[HDA_QUEUES_BYTES];
    uint8_t on[1] = {6}, into[HDA_BOUNDS_BYTES + 3], frames[192] = {0};
    CHECK(hda_new(device, sizeof device, lists, sizeof lists, queues, sizeof queues, 1), HDA_DONE);
    CHECK(hda_host_new(HOST), HDA_DONE);
    CHECK(hda_number(hda_config_write(RECORDS, MEMORY, 1, 0, on, 1)), HDA_DONE);
    write_register(0x08, 1, 1);
    start(0, 0x400, 0x2000);
    start(1, 0x500, 0x1000);
    CHECK(hda_value(hda_feed(HOST, frames, sizeof frames)), 48);
    CHECK(hda_number(hda_advance(RECORDS, MEMORY, 1000000)), HDA_DONE);
    CHECK(hda_submitted(device, 0), 192);
    CHECK(hda_submitted(device, 1), 192);
    CHECK(hda_submitted(device, 2), 0);
    memset(lists, 0xab, sizeof lists);
    memcpy(device_before, device, sizeof device);
    memcpy(host_before, host, sizeof host);
    memcpy(lists_before, lists, sizeof lists);
    memcpy(queues_before, queues, sizeof queues);
    memcpy(memory_before, memory, sizeof memory);
    memset(into, 0xee, sizeof into);
    lay_scratch();
    uint64_t reply = hda_advance_bounds(RECORDS, MEMORY, 500000, 1500000, SCRATCH, into, sizeof into);
    CHECK(hda_number(reply), HDA_DONE);
    CHECK(hda_value(reply), HDA_BOUNDS_BYTES);
    CHECK(hda_sends_message(reply), 0);
    for (unsigned stream = 0; stream < 2; stream++) {
        CHECK(hda_lowest(into, stream), 192 + 96);
        CHECK(hda_highest(into, stream), 192 + 288);
        CHECK(stands(into, 16 * stream, 8), 192 + 96);
        CHECK(stands(into, 16 * stream + 8, 8), 192 + 288);
    }
    CHECK(hda_lowest(into, 2), 0);
    CHECK(hda_highest(into, 2), 0);
    CHECK(untouched(into, HDA_BOUNDS_BYTES, sizeof into), 1);
    CHECK(scratch_zero(), 1);

    /* Refusals in their order: lent space, then records, then the times, then each space that is a byte too short. */
    memset(into, 0xee, sizeof into);
    lay_scratch();
    const size_t lists_least = HDA_LISTS_BYTES, queues_least = HDA_QUEUES_BYTES, memory_least = sizeof memory;
    const uint64_t level = hda_config_read(RECORDS, 64);
    CHECK(hda_advance_bounds(RECORDS, MEMORY, 2, 1, SCRATCH, into, sizeof into), level | HDA_REVERSED);
    CHECK(hda_advance_bounds(RECORDS, MEMORY, UINT64_MAX, 0, NOTHING, NOTHING, NOTHING, NOTHING), level | HDA_REVERSED);
    CHECK(hda_advance_bounds(RECORDS, MEMORY, 1, 2, more_lists, lists_least - 1, more_queues, queues_least, more_memory, memory_least, into, sizeof into), level | HDA_SHORT_SPACE);
    CHECK(hda_advance_bounds(RECORDS, MEMORY, 1, 2, more_lists, lists_least, more_queues, queues_least - 1, more_memory, memory_least, into, sizeof into), level | HDA_SHORT_SPACE);
    CHECK(hda_advance_bounds(RECORDS, MEMORY, 1, 2, more_lists, lists_least, more_queues, queues_least, more_memory, memory_least - 1, into, sizeof into), level | HDA_SHORT_SPACE);
    CHECK(hda_advance_bounds(RECORDS, MEMORY, 1, 2, SCRATCH, into, HDA_BOUNDS_BYTES - 1), level | HDA_SHORT_SPACE);
    CHECK(hda_number(hda_advance_bounds(device, sizeof device, host, sizeof host, lists, sizeof lists - 1, QUEUES, MEMORY, 2, 1, SCRATCH, into, sizeof into)), HDA_LENT_SPACE);
    CHECK(hda_number(hda_advance_bounds(device, sizeof device, host, sizeof host, LISTS, queues, sizeof queues - 1, MEMORY, 2, 1, SCRATCH, into, sizeof into)), HDA_LENT_SPACE);
    CHECK(hda_advance_bounds(device, sizeof device - 1, host, sizeof host, LISTS, QUEUES, MEMORY, 2, 1, SCRATCH, into, sizeof into), HDA_STATE);
    CHECK(hda_advance_bounds(device, sizeof device, host, sizeof host - 1, LISTS, QUEUES, MEMORY, 2, 1, SCRATCH, into, sizeof into), HDA_STATE);
    host[2] = 2;
    CHECK(hda_number(hda_advance_bounds(RECORDS, MEMORY, 2, 1, SCRATCH, into, sizeof into)), HDA_STATE);
    host[2] = 0;
    CHECK(untouched(into, 0, sizeof into), 1);
    CHECK(scratch_untouched(), 1);

    /* The least of all spaces serves. What is lent beyond stays as it was. */
    CHECK(hda_value(hda_advance_bounds(RECORDS, MEMORY, 1, 2, more_lists, lists_least, more_queues, queues_least, more_memory, memory_least, into, HDA_BOUNDS_BYTES)), HDA_BOUNDS_BYTES);
    CHECK(untouched(more_lists, lists_least, sizeof more_lists), 1);
    CHECK(untouched(more_queues, queues_least, sizeof more_queues), 1);
    CHECK(untouched(more_memory, memory_least, sizeof more_memory), 1);
    CHECK(zero(more_lists, lists_least) && zero(more_queues, queues_least) && zero(more_memory, memory_least), 1);
    CHECK(hda_lowest(into, 1), 192);
    CHECK(hda_highest(into, 1), 192);
    /* Nobody pulls, so that the queue's 512 frames are the most. A capture that finds nothing goes on with silence, for 8,192 frames. */
    CHECK(hda_number(hda_advance_bounds(RECORDS, MEMORY, 0, UINT64_MAX, SCRATCH, into, sizeof into)), HDA_DONE);
    CHECK(hda_lowest(into, 0), 192);
    CHECK(hda_highest(into, 0), 192 + 4 * 8192);
    CHECK(hda_lowest(into, 1), 192);
    CHECK(hda_highest(into, 1), 2048);
    CHECK(scratch_zero(), 1);
    CHECK(memcmp(device_before, device, sizeof device), 0);
    CHECK(memcmp(host_before, host, sizeof host), 0);
    CHECK(memcmp(lists_before, lists, sizeof lists), 0);
    CHECK(memcmp(queues_before, queues, sizeof queues), 0);
    CHECK(memcmp(memory_before, memory, sizeof memory), 0);

    /* The playback's buffer, which it has read 192 bytes of, now ends 40 bytes behind where it stands: an eleventh frame makes the transfer fail, and none counts. */
    uint64_t address = sizeof memory - 192 - 40;
    for (unsigned i = 0; i < 8; i++)
        memory[0x500 + i] = (uint8_t)(address >> 8 * i);
    CHECK(hda_number(hda_advance_bounds(RECORDS, MEMORY, 500000, 500000, SCRATCH, into, sizeof into)), HDA_DONE);
    CHECK(hda_highest(into, 1), 192);
    CHECK(hda_number(hda_advance_bounds(RECORDS, MEMORY, 100000, 500000, SCRATCH, into, sizeof into)), HDA_DONE);
    CHECK(hda_lowest(into, 1), 192);
    CHECK(hda_highest(into, 1), 192 + 40);

    /* The host end is made anew and refuses to open. */
    CHECK(hda_host_new(HOST), HDA_DONE);
    CHECK(hda_number(hda_set_playback_fails(HOST, 1)), HDA_DONE);
    CHECK(hda_number(hda_set_capture_fails(HOST, 1)), HDA_DONE);
    CHECK(hda_number(hda_advance_bounds(RECORDS, MEMORY, 100000, 100000, SCRATCH, into, sizeof into)), HDA_DONE);
    CHECK(hda_lowest(into, 0), 192 + 16);
    CHECK(hda_lowest(into, 1), 192 + 16);
    CHECK(host[0] & host[1], 1);
    CHECK(hda_number(hda_advance(RECORDS, MEMORY, 100000)), HDA_HOST_CLOSED);
    CHECK(hda_submitted(device, 0), 192);

    /* A guest with no memory needs no scratch for it. */
    CHECK(hda_number(hda_advance_bounds(RECORDS, NOTHING, 0, 1000000, more_lists, sizeof more_lists, more_queues, sizeof more_queues, NOTHING, into, sizeof into)), HDA_DONE);
    CHECK(hda_highest(into, 0), 192);
}

/* The low `width` bytes of a value into bytes from `place` on, lowest first. */
static void lay(uint8_t *bytes, size_t place, size_t width, uint64_t value)
{
    for (size_t i = 0; i < width; i++)
        bytes[place + i] = (uint8_t)(value >> 8 * i);
}

/* A stream of `state`: 34 bytes of numbers, with 100 bytes submitted and none consumed, then two pending positions. */
static void lay_stream(size_t place, uint64_t first, uint64_t second)
{
    memset(state + place, 0, 34);
    lay(state, place + 6, 8, 100);
    lay(state, place + 30, 4, 2);
    lay(state, place + 34, 8, first);
    lay(state, place + 42, 8, second);
}

/* A state with two positions pending in each stream: those of the capture are one byte apart, those of the playback 4. */
static void crowded(void)
{
    const size_t length = 748 + 32, playback = 680 + 50, playback_list = HDA_LISTS_BYTES / 2;
    uint8_t before[HDA_DEVICE_BYTES];
    CHECK(hda_new(device, sizeof device, lists, sizeof lists, queues, sizeof queues, 1), HDA_DONE);
    CHECK(hda_host_new(HOST), HDA_DONE);
    CHECK(hda_value(hda_save(RECORDS, state, sizeof state)), 748);
    lay_stream(680, 40, 41);
    lay_stream(playback, 60, 64);
    memcpy(before, device, sizeof before);
    memset(lists, 0xee, sizeof lists);
    CHECK(hda_number(hda_restore(RECORDS, state, length)), HDA_CROWDED);
    /* Whatever else is wrong, both refuse. */
    CHECK(hda_number(hda_restore_emptied(RECORDS, state, length - 1)), HDA_LIST_LENGTH);
    CHECK(hda_number(hda_restore_emptied(RECORDS, state, length + 1)), HDA_STATE);
    CHECK(memcmp(before, device, sizeof before), 0);
    CHECK(untouched(lists, 0, sizeof lists), 1);
    /* The capture's list is empty, and nothing else of it changed; the playback's list is there. */
    CHECK(hda_number(hda_restore_emptied(RECORDS, state, length)), HDA_DONE);
    CHECK(memcmp(device + 680, state + 680, 30), 0);
    CHECK(stands(device, 680 + 30, 4), 0);
    CHECK(untouched(lists, 0, playback_list), 1);
    CHECK(memcmp(device + 680 + 34, state + playback, 34), 0);
    CHECK(memcmp(lists + playback_list, state + playback + 34, 16), 0);
    CHECK(untouched(lists, playback_list + 16, sizeof lists), 1);
    /* What is then saved hda_restore takes, but not with positions 3 apart, and up to a descriptor offset that reaches from the last one to what was submitted. */
    CHECK(hda_value(hda_save(RECORDS, state, sizeof state)), 748 + 16);
    CHECK(hda_number(hda_restore(RECORDS, state, 748 + 16)), HDA_DONE);
    lay(state, 748, 8, 61);
    CHECK(hda_number(hda_restore(RECORDS, state, 748 + 16)), HDA_CROWDED);
    lay(state, 748, 8, 60);
    state[680 + 34 + 2] = 36;
    CHECK(hda_number(hda_restore(RECORDS, state, 748 + 16)), HDA_DONE);
    state[680 + 34 + 2] = 37;
    CHECK(hda_number(hda_restore(RECORDS, state, 748 + 16)), HDA_CROWDED);
    CHECK(hda_number(hda_restore_emptied(RECORDS, state, 748 + 16)), HDA_DONE);
    CHECK(stands(device, 680 + 34 + 2, 4), 37);
    CHECK(stands(device, 680 + 34 + 30, 4), 0);
}

/* Two frames at 88,200 as a file. */
static const uint8_t take[] = {
    'R', 'I', 'F', 'F', 44, 0, 0, 0, 'W', 'A', 'V', 'E', 'f', 'm', 't', ' ', 16, 0, 0, 0, 1, 0, 2, 0, 0x88, 0x58, 1, 0, 0x20, 0x62, 5, 0, 4, 0, 16, 0,
    'd', 'a', 't', 'a', 8, 0, 0, 0, 1, 2, 3, 4, 0xfc, 0xfd, 0xfe, 0xff,
};
static const uint8_t *const take_frames = take + HDA_WAV_HEADER_BYTES;

static void wav_written(void)
{
    uint8_t into[60];
    memset(into, 0xee, sizeof into);
    CHECK(hda_wav_write(88201, take_frames, 8, into, sizeof into), HDA_WAV);
    CHECK(hda_wav_write(88200, take_frames, 7, into, sizeof into), HDA_WAV);
    CHECK(hda_wav_write(88201, take_frames, 8, into, 51), HDA_WAV);
    CHECK(hda_wav_write(88200, take_frames, 8, into, 51), HDA_SHORT_SPACE);
    CHECK(untouched(into, 0, sizeof into), 1);
    uint64_t reply = hda_wav_write(88200, take_frames, 8, into, sizeof into);
    CHECK(hda_number(reply), HDA_DONE);
    CHECK(hda_wav_bytes(reply), sizeof take);
    CHECK(hda_wav_rate(reply), 88200);
    CHECK(memcmp(into, take, sizeof take), 0);
    CHECK(untouched(into, sizeof take, sizeof into), 1);
    CHECK(hda_wav_write(88200, take_frames, 8, into, sizeof take), reply);
}

static void wav_read(void)
{
    uint8_t file[sizeof take + 1], into[60];
    memcpy(file, take, sizeof take);
    file[sizeof take] = 0;
    memset(into, 0xee, sizeof into);
    for (size_t i = 0; i < HDA_WAV_HEADER_BYTES; i++)
        for (unsigned change = 1; change <= 0xff; change++) {
            file[i] ^= (uint8_t)change;
            CHECK(hda_wav_read(file, sizeof take, into, sizeof into), HDA_WAV);
            file[i] ^= (uint8_t)change;
        }
    for (size_t length = 0; length <= sizeof file; length++)
        if (length != sizeof take)
            CHECK(hda_wav_read(file, length, into, sizeof into), HDA_WAV);
    CHECK(hda_wav_read(file, sizeof file, into, 7), HDA_WAV);
    CHECK(hda_wav_read(file, sizeof take, into, 7), HDA_SHORT_SPACE);
    CHECK(untouched(into, 0, sizeof into), 1);
    uint64_t reply = hda_wav_read(file, sizeof take, into, sizeof into);
    CHECK(hda_number(reply), HDA_DONE);
    CHECK(hda_wav_bytes(reply), 8);
    CHECK(hda_wav_rate(reply), 88200);
    CHECK(memcmp(into, take_frames, 8), 0);
    CHECK(untouched(into, 8, sizeof into), 1);
    CHECK(hda_wav_read(file, sizeof take, into, 8), reply);
}

/* A take of no frames is a file too, and each length that may be 0 is so at NULL. */
static void wav_empty(void)
{
    uint8_t file[HDA_WAV_HEADER_BYTES];
    uint64_t written = hda_wav_write(44100, NOTHING, file, sizeof file);
    CHECK(hda_number(written), HDA_DONE);
    CHECK(hda_wav_bytes(written), 44);
    CHECK(hda_wav_rate(written), 44100);
    CHECK(stands(file, 4, 4), 36);
    CHECK(stands(file, 24, 4), 44100);
    CHECK(stands(file, 28, 4), 176400);
    CHECK(stands(file, 40, 4), 0);
    uint64_t read = hda_wav_read(file, sizeof file, NOTHING);
    CHECK(hda_number(read), HDA_DONE);
    CHECK(hda_wav_bytes(read), 0);
    CHECK(hda_wav_rate(read), 44100);
    CHECK(hda_wav_read(take, sizeof take, NOTHING), HDA_SHORT_SPACE);
    CHECK(hda_wav_write(44100, take_frames, 8, NOTHING), HDA_SHORT_SPACE);
    CHECK(hda_wav_write(44100, NOTHING, NOTHING), HDA_SHORT_SPACE);
    CHECK(hda_wav_write(0, NOTHING, NOTHING), HDA_WAV);
    CHECK(hda_wav_read(NOTHING, file, sizeof file), HDA_WAV);
    CHECK(hda_wav_read(NOTHING, NOTHING), HDA_WAV);
}

/* The bits of a returned number: those of the largest file, and each part alone. */
static void wav_replies(void)
{
    const uint64_t largest = (uint64_t)96000 << 44 | (HDA_WAV_FRAMES_BYTES_MAX + (uint64_t)HDA_WAV_HEADER_BYTES) << 8;
    CHECK(hda_number(largest), HDA_DONE);
    CHECK(hda_wav_bytes(largest), 4294967300);
    CHECK(hda_wav_rate(largest), 96000);
    CHECK(hda_wav_bytes(0xfffff000000000ff), 0);
    CHECK(hda_wav_rate(0x00000fffffffffff), 0);
}

/* Every call on records without spaces, then without records. */
static void nothing(void)
{
    const uint64_t short_spaces[] = {
        hda_new(device, sizeof device, NOTHING, NOTHING, 1),
        hda_host_new(host, sizeof host, NOTHING),
        hda_advance(NOTHING, NOTHING, NOTHING, NOTHING, NOTHING, 1),
        hda_advance_bounds(NOTHING, NOTHING, NOTHING, NOTHING, NOTHING, 2, 1, NOTHING, NOTHING, NOTHING, NOTHING),
        hda_read(NOTHING, NOTHING, NOTHING, NOTHING, 0, NOTHING),
        hda_write(NOTHING, NOTHING, NOTHING, NOTHING, NOTHING, 0, NOTHING),
        hda_bar_read(NOTHING, NOTHING, NOTHING, NOTHING, 0, 0, NOTHING),
        hda_bar_write(NOTHING, NOTHING, NOTHING, NOTHING, NOTHING, 0, 0, NOTHING),
        hda_config_read(NOTHING, NOTHING, NOTHING, NOTHING, 0),
        hda_config_write(NOTHING, NOTHING, NOTHING, NOTHING, NOTHING, 0, 0, NOTHING),
        hda_pin_presence_changed(NOTHING, NOTHING, NOTHING, NOTHING, NOTHING, 3),
        hda_set_paused(NOTHING, NOTHING, NOTHING, NOTHING, 1),
        hda_save(NOTHING, NOTHING, NOTHING, NOTHING, NOTHING),
        hda_restore(NOTHING, NOTHING, NOTHING, NOTHING, NOTHING),
        hda_restore_emptied(NOTHING, NOTHING, NOTHING, NOTHING, NOTHING),
        hda_feed(NOTHING, NOTHING, NOTHING),
        hda_pull(NOTHING, NOTHING, NOTHING),
        hda_set_playback_fails(NOTHING, NOTHING, 1),
        hda_set_capture_fails(NOTHING, NOTHING, 1),
        hda_set_downstream(NOTHING, NOTHING, 0),
    };
    const uint64_t no_records[] = {
        hda_new(NOTHING, LISTS, QUEUES, 1),
        hda_host_new(NOTHING, QUEUES),
        hda_advance(NOTHING, NOTHING, LISTS, QUEUES, MEMORY, 1),
        hda_advance_bounds(NOTHING, NOTHING, LISTS, QUEUES, MEMORY, 2, 1, NOTHING, NOTHING, NOTHING, NOTHING),
        hda_read(NOTHING, NOTHING, LISTS, QUEUES, 0, NOTHING),
        hda_write(NOTHING, NOTHING, LISTS, QUEUES, MEMORY, 0, NOTHING),
        hda_bar_read(NOTHING, NOTHING, LISTS, QUEUES, 0, 0, NOTHING),
        hda_bar_write(NOTHING, NOTHING, LISTS, QUEUES, MEMORY, 0, 0, NOTHING),
        hda_config_read(NOTHING, NOTHING, LISTS, QUEUES, 0),
        hda_config_write(NOTHING, NOTHING, LISTS, QUEUES, MEMORY, 0, 0, NOTHING),
        hda_pin_presence_changed(NOTHING, NOTHING, LISTS, QUEUES, MEMORY, 3),
        hda_set_paused(NOTHING, NOTHING, LISTS, QUEUES, 1),
        hda_save(NOTHING, NOTHING, LISTS, QUEUES, NOTHING),
        hda_restore(NOTHING, NOTHING, LISTS, QUEUES, NOTHING),
        hda_restore_emptied(NOTHING, NOTHING, LISTS, QUEUES, NOTHING),
        hda_feed(NOTHING, QUEUES, NOTHING),
        hda_pull(NOTHING, QUEUES, NOTHING),
        hda_set_playback_fails(NOTHING, QUEUES, 1),
        hda_set_capture_fails(NOTHING, QUEUES, 1),
        hda_set_downstream(NOTHING, QUEUES, 0),
    };
    for (size_t i = 0; i < sizeof short_spaces / sizeof *short_spaces; i++)
        CHECK(short_spaces[i], HDA_LENT_SPACE);
    for (size_t i = 0; i < sizeof no_records / sizeof *no_records; i++)
        CHECK(no_records[i], HDA_STATE);
}

int main(void)
{
    made();
    played();
    refused();
    saved();
    restored();
    empty();
    exchanged();
    stalled();
    jittery();
    rates();
    crowded();
    wav_written();
    wav_read();
    wav_empty();
    wav_replies();
    nothing();
    printf("%d checks, %d failed\n", checks, failures);
    return failures != 0;
}
