/* The ICH9 HDA sound device of libport.a (`tools/device`), for C and C++ on x86-64.
 *
 * The caller keeps everything: the device and its host end are records of bytes, and lists, queues and guest memory are lent to each call. docs/LAYOUT.md has the
 * bytes of the records. Any bytes of any length may be handed in, in any order of calls: a function reads and writes its slices, at most to their lengths, and nothing
 * else, and it always returns. Three rules are the caller's: each pointer has as many bytes as its length says; a slice that a call writes, which is one whose pointer is
 * not const, overlaps no other slice of the call; nothing else writes a slice while the call runs. A slice of length 0 may have any pointer, NULL too. Numbers in records
 * are little-endian.
 *
 * Stream 0 captures, stream 1 plays.
 */
#ifndef HDA_H
#define HDA_H

#include <stddef.h>
#include <stdint.h>

#ifdef __cplusplus
extern "C" {
#endif

/* Lengths. Those of the records are exact, those of the spaces the least; the space of a saved state is what any state needs at most. That of bounds is what hda_advance_bounds fills. */
#define HDA_DEVICE_BYTES 749
#define HDA_HOST_BYTES 16
#define HDA_LISTS_BYTES 69632
#define HDA_QUEUES_BYTES 4096
#define HDA_STATE_BYTES_MAX 70380
#define HDA_BOUNDS_BYTES 32

/* Of a take as a WAV file: its header, and frames behind the header at most. */
#define HDA_WAV_HEADER_BYTES 44
#define HDA_WAV_FRAMES_BYTES_MAX 4294967256

/* The numbers that calls return (hda_number). A refusal changes nothing, except HDA_HOST_CLOSED from hda_advance. */
#define HDA_DONE 0
#define HDA_HOST_CLOSED 1  /* an opening failed: in hda_advance the stream stopped and what came before stands, in hda_restore and hda_restore_emptied nothing changed */
#define HDA_SHORT_STATE 2  /* hda_restore and hda_restore_emptied, up to 8: the state ends inside a field */
#define HDA_WRONG_MARK 3   /* the state does not begin with HDA1 */
#define HDA_MICROPHONE 4   /* the state is of a device with a microphone and this one has none, or the other way round */
#define HDA_FORMAT 5       /* a format word of the state is unsupported; a guest can store one */
#define HDA_LIST_LENGTH 6  /* more than 4,352 positions for a stream, or more than the state has bytes for */
#define HDA_LIST_ORDER 7   /* a position not above the one before, or above what was submitted */
#define HDA_STREAM 8       /* a stream's descriptor, counts or time */
#define HDA_STATE 9        /* bytes that are no record, or a record that breaks a condition; hda_restore and hda_restore_emptied also: bytes left over, pause byte, clock, responses, identity */
#define HDA_LENT_SPACE 10  /* lists, queues, or the space for a saved state too short */
#define HDA_ODD_FRAMES 11  /* hda_feed, hda_pull: length no multiple of 4 */
#define HDA_LATENCY 12     /* hda_set_downstream: above 14,336 or no multiple of 4 */
#define HDA_WAV 13         /* hda_wav_write: a rate that the box does not have, frames of no multiple of 4 bytes or too many; hda_wav_read: not a file that hda_wav_write makes */
#define HDA_SHORT_SPACE 14 /* hda_wav_write, hda_wav_read: space for the result too short; hda_advance_bounds: that, or scratch space */
#define HDA_CROWDED 20     /* hda_restore: positions fewer than 4 bytes apart, or the last with the stream's descriptor offset above what was submitted */
#define HDA_REVERSED 21    /* hda_advance_bounds: the shortest time is longer than the longest */

/* Every function returns one number, which these take apart; hda_wav_write and hda_wav_read have hda_number and two of their own. */

/* One of the numbers above. */
static inline unsigned hda_number(uint64_t reply) { return (unsigned)(reply & 0xff); }

/* The INTx level that the call left. 0 from calls on the host end alone, which leave it as it was, and where the bytes are no record. */
static inline int hda_level(uint64_t reply) { return (int)(reply >> 8 & 1); }

/* Whether a message (MSI) is to be sent now: hda_message_address and hda_message_data of the device record as the call left it. */
static inline int hda_sends_message(uint64_t reply) { return (int)(reply >> 9 & 1); }

/* Frames moved (hda_feed, hda_pull), bytes written (hda_save, hda_advance_bounds), or the register (hda_config_read); else 0. */
static inline uint32_t hda_value(uint64_t reply) { return (uint32_t)(reply >> 32); }

/* A word of 64 bits as it stands in the records and in results: lowest byte first. */
static inline uint64_t hda_word_64(const uint8_t bytes[8])
{
    uint64_t word = 0;
    for (int i = 7; i >= 0; i--)
        word = word << 8 | bytes[i];
    return word;
}

static inline uint64_t hda_message_address(const uint8_t device[HDA_DEVICE_BYTES]) { return hda_word_64(device + 6 + 0x64); }

static inline uint32_t hda_message_data(const uint8_t device[HDA_DEVICE_BYTES])
{
    return (uint32_t)device[6 + 0x6c] | (uint32_t)device[6 + 0x6d] << 8;
}

/* The rate of a format word that the device accepts, in frames a second: 44,100, 48,000, 88,200 or 96,000, in 16-bit stereo. 0 for every other word. */
static inline uint32_t hda_format_rate(uint16_t word)
{
    uint32_t multiple = (word >> 11 & 7u) + 1, divisor = (word >> 8 & 7u) + 1;
    uint32_t product = (word & 0x4000 ? 44100u : 48000u) * multiple, rate = product / divisor;
    /* PCM, the reserved bit clear, 16 bits, two channels; multiples above 4 are reserved. */
    int stereo = (word & 0x80ff) == 0x0011 && multiple <= 4;
    int listed = rate == 44100 || rate == 48000 || rate == 88200 || rate == 96000;
    return stereo && rate * divisor == product && listed ? rate : 0;
}

/* The rate at which stream 0 or 1 is open, in frames a second; 0 where it is closed. 0 too where the guest has just written a format that the device does not accept under
 * a running stream: its next turn in hda_advance stops it. */
static inline uint32_t hda_rate(const uint8_t device[HDA_DEVICE_BYTES], const uint8_t host[HDA_HOST_BYTES], unsigned stream)
{
    if (stream > 1 || !host[6 + 5 * stream])
        return 0;
    const uint8_t *format = device + 262 + 0x92 + 0x20 * stream;
    return hda_format_rate((uint16_t)(format[0] | format[1] << 8));
}

/* The whole frames that are due in stream 0 or 1 and were not moved, at most 8,192: those of a playback whose queue is full wait for the host's pulls. */
static inline uint64_t hda_deferred(const uint8_t device[HDA_DEVICE_BYTES], unsigned stream) { return stream <= 1 ? hda_word_64(device + 680 + 34 * stream + 22) / 1000000000 : 0; }

/* The count of bytes that stream 0 or 1 has submitted: written to guest memory by a capture, read from it by a playback. It begins at 0 with a reset, or where a restored state says. */
static inline uint64_t hda_submitted(const uint8_t device[HDA_DEVICE_BYTES], unsigned stream) { return stream <= 1 ? hda_word_64(device + 680 + 34 * stream + 6) : 0; }

/* What hda_advance_bounds put into `into` for stream 0 or 1: the lowest and the highest count of submitted bytes. Less hda_submitted they are what an hda_advance moves at least and at
 * most. */
static inline uint64_t hda_lowest(const uint8_t into[HDA_BOUNDS_BYTES], unsigned stream) { return stream <= 1 ? hda_word_64(into + 16 * stream) : 0; }

static inline uint64_t hda_highest(const uint8_t into[HDA_BOUNDS_BYTES], unsigned stream) { return stream <= 1 ? hda_word_64(into + 16 * stream + 8) : 0; }

/* Calls that make a record, whatever its bytes were before. HDA_LENT_SPACE for short lists or queues, then HDA_STATE for another length of the record. */

/* A new device. A microphone other than 0 is there. */
uint64_t hda_new(uint8_t *device, size_t device_length, const uint8_t *lists, size_t lists_length, const uint8_t *queues, size_t queues_length, uint32_t microphone);

/* A new host end: openings succeed, downstream 0, both streams closed. */
uint64_t hda_host_new(uint8_t *host, size_t host_length, const uint8_t *queues, size_t queues_length);

/* Calls on the device. Before anything else HDA_LENT_SPACE for short lists or queues, then HDA_STATE for the records. */

/* `nanos` nanoseconds of unpaused time pass: the clock runs, waiting commands are carried out, running streams move what is due. */
uint64_t hda_advance(uint8_t *device, size_t device_length, uint8_t *host, size_t host_length, uint8_t *lists, size_t lists_length, uint8_t *queues,
                     size_t queues_length, uint8_t *memory, size_t memory_length, uint64_t nanos);

/* Between which counts the streams' submitted bytes end where hda_advance is called with some whole number of nanoseconds from `shortest` to `longest`, and every opening succeeds: the
 * lowest and the highest into the first HDA_BOUNDS_BYTES of `into`, read by hda_lowest and hda_highest; the rest stays. Each is reached by some time between, and none ends outside, also where a transfer
 * fails. Nothing of device, host end, lists, queues and memory changes. HDA_REVERSED, then HDA_SHORT_SPACE where scratch lists or queues have fewer bytes than such spaces need, scratch memory fewer than
 * `memory`, or `into` fewer than HDA_BOUNDS_BYTES. What the scratch holds before does not matter; afterwards all of it is 0. A refusal leaves scratch and `into` as they were. */
uint64_t hda_advance_bounds(const uint8_t *device, size_t device_length, const uint8_t *host, size_t host_length, const uint8_t *lists, size_t lists_length,
                            const uint8_t *queues, size_t queues_length, const uint8_t *memory, size_t memory_length, uint64_t shortest, uint64_t longest,
                            uint8_t *scratch_lists, size_t scratch_lists_length, uint8_t *scratch_queues, size_t scratch_queues_length, uint8_t *scratch_memory,
                            size_t scratch_memory_length, uint8_t *into, size_t into_length);

/* Registers from `offset` on into all of `into`; what is no register reads 0. */
uint64_t hda_read(const uint8_t *device, size_t device_length, const uint8_t *host, size_t host_length, const uint8_t *lists, size_t lists_length,
                  const uint8_t *queues, size_t queues_length, uint64_t offset, uint8_t *into, size_t into_length);

/* A guest's write of `bytes` to the registers from `offset` on; bytes at no register are dropped. */
uint64_t hda_write(uint8_t *device, size_t device_length, uint8_t *host, size_t host_length, const uint8_t *lists, size_t lists_length, const uint8_t *queues,
                   size_t queues_length, uint8_t *memory, size_t memory_length, uint64_t offset, const uint8_t *bytes, size_t bytes_length);

/* The same two at base address register `bar`: 0 has the registers, any other reads 0 and drops writes. */
uint64_t hda_bar_read(const uint8_t *device, size_t device_length, const uint8_t *host, size_t host_length, const uint8_t *lists, size_t lists_length,
                      const uint8_t *queues, size_t queues_length, uint32_t bar, uint64_t offset, uint8_t *into, size_t into_length);
uint64_t hda_bar_write(uint8_t *device, size_t device_length, uint8_t *host, size_t host_length, const uint8_t *lists, size_t lists_length, const uint8_t *queues,
                       size_t queues_length, uint8_t *memory, size_t memory_length, uint32_t bar, uint64_t offset, const uint8_t *bytes, size_t bytes_length);

/* The four bytes of configuration register `register_index`, as hda_value; 0 from 64 on. */
uint64_t hda_config_read(const uint8_t *device, size_t device_length, const uint8_t *host, size_t host_length, const uint8_t *lists, size_t lists_length,
                         const uint8_t *queues, size_t queues_length, uint64_t register_index);

/* A write of `bytes` to the configuration, from byte `offset` of a register on. */
uint64_t hda_config_write(uint8_t *device, size_t device_length, const uint8_t *host, size_t host_length, const uint8_t *lists, size_t lists_length,
                          const uint8_t *queues, size_t queues_length, uint8_t *memory, size_t memory_length, uint64_t register_index, uint64_t offset,
                          const uint8_t *bytes, size_t bytes_length);

/* Something was plugged in or out at pin `node` (3 or 5; others have none). */
uint64_t hda_pin_presence_changed(uint8_t *device, size_t device_length, const uint8_t *host, size_t host_length, const uint8_t *lists, size_t lists_length,
                                  const uint8_t *queues, size_t queues_length, uint8_t *memory, size_t memory_length, uint32_t node);

/* While paused (other than 0) streams and clock stand still. */
uint64_t hda_set_paused(uint8_t *device, size_t device_length, const uint8_t *host, size_t host_length, const uint8_t *lists, size_t lists_length,
                        const uint8_t *queues, size_t queues_length, uint32_t paused);

/* The saved state into the first hda_value bytes of `into`; the rest stays. HDA_LENT_SPACE too where `into` has fewer than 748 + 8 for each pending position. */
uint64_t hda_save(const uint8_t *device, size_t device_length, const uint8_t *host, size_t host_length, const uint8_t *lists, size_t lists_length,
                  const uint8_t *queues, size_t queues_length, uint8_t *into, size_t into_length);

/* The device takes a saved state: the whole of `state`. Where it is refused nothing changes: HDA_SHORT_STATE to HDA_STATE in the order of the bytes, with HDA_CROWDED for
 * a stream directly after its HDA_STREAM, then HDA_HOST_CLOSED where a stream of the state runs and its opening fails. Where it is accepted queues are empty, the later of the two clocks stays, and nothing of the
 * host end changes but the queues' lengths and which streams are open. */
uint64_t hda_restore(uint8_t *device, size_t device_length, uint8_t *host, size_t host_length, uint8_t *lists, size_t lists_length, const uint8_t *queues,
                     size_t queues_length, const uint8_t *state, size_t state_length);

/* The same for a stored state that hda_restore refuses with HDA_CROWDED: each crowded list is emptied, and nothing else of the state changes; a list that is not crowded
 * stays. Every other refusal is hda_restore's, HDA_CROWDED is never given. The completions of an emptied list are lost: the guest gets no interrupt for them. */
uint64_t hda_restore_emptied(uint8_t *device, size_t device_length, uint8_t *host, size_t host_length, uint8_t *lists, size_t lists_length, const uint8_t *queues,
                             size_t queues_length, const uint8_t *state, size_t state_length);

/* Calls of the host's sound driver, on the host end alone. Before anything else HDA_LENT_SPACE for short queues, then HDA_STATE for the record. */

/* Frames for capture, as many as fit; hda_value frames were taken. A closed stream takes none. */
uint64_t hda_feed(uint8_t *host, size_t host_length, uint8_t *queues, size_t queues_length, const uint8_t *frames, size_t frames_length);

/* Frames of playback, as many as there are, into the start of `into`; hda_value frames were given. The rest stays. */
uint64_t hda_pull(uint8_t *host, size_t host_length, uint8_t *queues, size_t queues_length, uint8_t *into, size_t into_length);

/* Whether openings for playback, or for capture, fail from now on (other than 0). */
uint64_t hda_set_playback_fails(uint8_t *host, size_t host_length, const uint8_t *queues, size_t queues_length, uint32_t fails);
uint64_t hda_set_capture_fails(uint8_t *host, size_t host_length, const uint8_t *queues, size_t queues_length, uint32_t fails);

/* How many bytes of playback the host holds that left the queue and are not heard yet. */
uint64_t hda_set_downstream(uint8_t *host, size_t host_length, const uint8_t *queues, size_t queues_length, uint32_t bytes);

/* Takes as WAV files, 16-bit stereo. The calls are handed neither device nor host end. */

/* Bytes that hda_wav_write or hda_wav_read put into the start of `into`: up to 4,294,967,300, more than 32 bits. 0 where it refused. */
static inline uint64_t hda_wav_bytes(uint64_t reply) { return reply >> 8 & 0xfffffffffu; }

/* The take's rate in frames a second. 0 where the call refused. */
static inline uint32_t hda_wav_rate(uint64_t reply) { return (uint32_t)(reply >> 44); }

/* Pulled frames as a file from the start of `into` on: a header of HDA_WAV_HEADER_BYTES, then the frames; the rest stays. `rate` is 44,100, 48,000, 88,200 or 96,000. HDA_WAV, then
 * HDA_SHORT_SPACE. */
uint64_t hda_wav_write(uint32_t rate, const uint8_t *frames, size_t frames_length, uint8_t *into, size_t into_length);

/* The frames of a file from the start of `into` on; the rest stays. The file is the whole of `file`, and byte for byte one that hda_wav_write makes. HDA_WAV, then HDA_SHORT_SPACE. */
uint64_t hda_wav_read(const uint8_t *file, size_t file_length, uint8_t *into, size_t into_length);

#ifdef __cplusplus
}
#endif

#endif
