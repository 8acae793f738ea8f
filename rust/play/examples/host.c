/* The same in C, for playback. Build: cc -I include rust/play/examples/host.c target/staticlib/libport.a */
#include "hda.h"
#include <inttypes.h>
#include <stdio.h>
#include <stdlib.h>
#include <string.h>

/* Everything that belongs to one device. */
struct sound {
    uint8_t device[HDA_DEVICE_BYTES];
    uint8_t host[HDA_HOST_BYTES];
    uint8_t lists[HDA_LISTS_BYTES];
    uint8_t queues[HDA_QUEUES_BYTES];
    uint8_t memory[1 << 20]; /* guest memory from address 0 on */
    uint64_t ticked;         /* the last timer tick in nanoseconds; 0 while the guest is stopped */
    uint32_t card;           /* the rate at which the host's sound card plays; 0 while it is closed */
    int line;
};

#define DEVICE(s) (s)->device, sizeof (s)->device
#define HOST(s) (s)->host, sizeof (s)->host
#define LISTS(s) (s)->lists, sizeof (s)->lists
#define QUEUES(s) (s)->queues, sizeof (s)->queues
#define MEMORY(s) (s)->memory, sizeof (s)->memory

/* After every call on the device, but not after hda_pull, hda_feed and the host's settings. */
static void interrupts(struct sound *s, uint64_t reply)
{
    switch (hda_number(reply)) {
    case HDA_DONE:
        break;
    case HDA_HOST_CLOSED:
        fputs("the host did not open a stream; the guest sees a stream error\n", stderr);
        break;
    default:
        fputs("refused: the records were overwritten\n", stderr);
        abort();
    }
    s->line = hda_level(reply);
    if (hda_sends_message(reply))
        printf("message %#" PRIx32 " to %#" PRIx64 "\n", hda_message_data(s->device), hda_message_address(s->device));
}

/* The guest chooses the rate, and the host's sound card is opened at it. */
static void follow(struct sound *s)
{
    uint32_t rate = hda_rate(s->device, s->host, 1);
    if (rate == s->card)
        return;
    s->card = rate;
    if (rate)
        printf("playback at %" PRIu32 " frames a second\n", rate);
    else
        puts("playback closed");
}

static void timer(struct sound *s, uint64_t now)
{
    uint64_t elapsed = s->ticked ? now - s->ticked : 0;
    s->ticked = now;
    interrupts(s, hda_advance(DEVICE(s), HOST(s), LISTS(s), QUEUES(s), MEMORY(s), elapsed));
    follow(s);
}

static void guest_writes(struct sound *s, uint64_t offset, const uint8_t *bytes, size_t length)
{
    interrupts(s, hda_bar_write(DEVICE(s), HOST(s), LISTS(s), QUEUES(s), MEMORY(s), 0, offset, bytes, length));
}

static void guest_reads(struct sound *s, uint64_t offset, uint8_t *into, size_t length)
{
    interrupts(s, hda_bar_read(DEVICE(s), HOST(s), LISTS(s), QUEUES(s), 0, offset, into, length));
}

static void playback(struct sound *s, uint8_t *out, size_t length)
{
    size_t given = 4 * (size_t)hda_value(hda_pull(HOST(s), QUEUES(s), out, length));
    memset(out + given, 0, length - given);
}

int main(void)
{
    static struct sound sound;
    struct sound *s = &sound;
    uint8_t frames[192], clock[4];
    if (hda_new(DEVICE(s), LISTS(s), QUEUES(s), 1) != 0 || hda_host_new(HOST(s), QUEUES(s)) != 0 || hda_set_downstream(HOST(s), QUEUES(s), 3840) != 0)
        return 1;
    guest_writes(s, 0x08, (const uint8_t[]){1, 0, 0, 0}, 4);
    for (uint64_t millisecond = 1; millisecond <= 11; millisecond++) {
        timer(s, millisecond * 1000000);
        playback(s, frames, sizeof frames);
    }
    guest_reads(s, 0x30, clock, sizeof clock);
    printf("10 ms are %d ticks of 24 MHz; line %d\n", clock[0] | clock[1] << 8 | clock[2] << 16 | clock[3] << 24, s->line);
    return 0;
}
