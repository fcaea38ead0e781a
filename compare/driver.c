/* SPDX-License-Identifier: Apache-2.0 AND BSD-3-Clause */
/*
 * The guest's side of the static library, held against others (bin/driver runs both):
 *
 *   driver bytes COUNT SEED   what it writes and reads against the structs of the kernel's header, on every type, state and
 *                             number of blocks, and on COUNT random requests, responses and configs. Each is read with every
 *                             shorter length, with room for fewer words, and with each byte of its padding not zero: 16, and
 *                             no word written.
 *   driver plans              reads configs and bitmaps, and prints them with what is proposed. A line without a space is the
 *                             bitmap for the lines below it, a character a block, 1 where it is plugged. Other lines have the
 *                             config: block size, node, start, region, usable, plugged and requested size, each but the node as
 *                             a number of 4 MiB, or such a number, + and bytes. ": " and the number of the refusal are put
 *                             behind it, or address and blocks of the plug.
 *
 * Slices end where memory ends, so that a byte touched behind one stops the program.
 */
#define _GNU_SOURCE
#include "jambcopper.h"

#include <endian.h>
#include <inttypes.h>
#include <linux/virtio_mem.h>
#include <stdio.h>
#include <stdlib.h>
#include <string.h>
#include <sys/mman.h>

_Static_assert(sizeof(struct virtio_mem_req) == JAMBCOPPER_REQUEST_BYTES, "request");
_Static_assert(sizeof(struct virtio_mem_resp) == JAMBCOPPER_RESPONSE_BYTES, "response");
_Static_assert(sizeof(struct virtio_mem_config) == JAMBCOPPER_CONFIG_BYTES, "config");

#define BLOCK JAMBCOPPER_BLOCK_SIZE
#define JUNK UINT64_C(0xa5a5a5a5a5a5a5a5)
#define PAGE 65536 /* a multiple of every processor's */

static _Noreturn void die(const char *why)
{
    fprintf(stderr, "driver: %s\n", why);
    exit(2);
}

/* Room for a slice of so many bytes, whose end is the end of memory. */
static void *room(int which, size_t bytes)
{
    static uint8_t *end[3];
    if (end[which] == NULL) {
        uint8_t *at = mmap(NULL, 2 * PAGE, PROT_READ | PROT_WRITE, MAP_PRIVATE | MAP_ANONYMOUS, -1, 0);
        if (at == MAP_FAILED || mprotect(at + PAGE, PAGE, PROT_NONE) != 0)
            die("no memory");
        end[which] = at + PAGE;
    }
    if (bytes > PAGE)
        die("a slice that is too long");
    return end[which] - bytes;
}

enum { BYTES, WORDS, BITMAP };

static void *lent(int which, const void *bytes, size_t count)
{
    return memcpy(room(which, count), bytes, count);
}

static uint64_t *junk(size_t words)
{
    return memset(room(WORDS, 8 * words), JUNK & 0xff, 8 * words);
}

/* ---- bytes */

static uint64_t compared, differ;

static void hold(bool same, const char *what, const uint8_t *bytes, size_t count)
{
    compared++;
    if (same || ++differ > 10)
        return;
    fprintf(stderr, "driver: %s:", what);
    for (size_t i = 0; i < count; i++)
        fprintf(stderr, " %02x", bytes[i]);
    fprintf(stderr, "\n");
}

static uint64_t state;

static uint64_t any(void)
{
    state ^= state << 13;
    state ^= state >> 7;
    state ^= state << 17;
    return state;
}

/* A number at an edge, or any. */
static uint64_t number(void)
{
    static const uint64_t edges[] = { 0, 1, 255, 256, 65535, 65536, UINT32_MAX, BLOCK, UINT64_MAX, UINT64_MAX >> 1 };
    uint64_t from = any();
    return from % 4 == 0 ? edges[(from >> 8) % (sizeof edges / sizeof *edges)] : any() >> (from >> 8) % 64;
}

/* The request as the header lays it out, against what is written, into a slice of every length. */
static void write_request(uint16_t type, uint64_t address, uint16_t blocks, bool lengths)
{
    struct virtio_mem_req request = { .type = htole16(type) };
    uint8_t before[JAMBCOPPER_REQUEST_BYTES + 2], due[sizeof before];
    if (type == VIRTIO_MEM_REQ_UNPLUG) {
        request.u.unplug.addr = htole64(address);
        request.u.unplug.nb_blocks = htole16(blocks);
    } else if (type == VIRTIO_MEM_REQ_STATE) {
        request.u.state.addr = htole64(address);
        request.u.state.nb_blocks = htole16(blocks);
    } else {
        request.u.plug.addr = htole64(address);
        request.u.plug.nb_blocks = htole16(blocks);
    }
    for (size_t i = 0; i < sizeof before; i++)
        before[i] = (uint8_t)any();
    for (size_t length = lengths ? 0 : sizeof request; length <= sizeof before; length++) {
        bool fits = length >= sizeof request;
        memcpy(due, before, sizeof due);
        if (fits)
            memcpy(due, &request, sizeof request);
        uint8_t *bytes = lent(BYTES, before, length);
        uint64_t given = jambcopper_driver_write_request(bytes, length, type, address, blocks);
        hold(given == (fits ? JAMBCOPPER_DONE : JAMBCOPPER_BAD_BYTES) && memcmp(bytes, due, length) == 0,
             "a request is written otherwise", bytes, length);
    }
}

typedef uint64_t reads(const uint8_t *bytes, size_t byte_count, uint64_t *words, size_t word_count);

/* One call that reads bytes into words: it gives the number, and writes the words if that is 0, else none. */
static void read_once(reads *call, const char *what, const uint8_t *bytes, size_t length, size_t has_room, uint64_t due,
                      const uint64_t *words, size_t count)
{
    const uint8_t *from = lent(BYTES, bytes, length);
    uint64_t *into = junk(has_room);
    bool same = call(from, length, into, has_room) == due && memcmp(from, bytes, length) == 0;
    for (size_t i = 0; i < has_room; i++)
        same = same && into[i] == (due == JAMBCOPPER_DONE && i < count ? words[i] : JUNK);
    hold(same, what, bytes, length);
}

/*
 * A call that reads: of `size` bytes, followed by 2 more, the number that is due and its words; 16 where there are fewer
 * bytes, where there is room for fewer words, and where a byte of the padding, from `padding` on, is not zero.
 */
static void read_all(reads *call, const char *what, const uint8_t *bytes, size_t size, size_t padding, uint64_t due,
                     const uint64_t *words, size_t count)
{
    uint8_t spoiled[JAMBCOPPER_CONFIG_BYTES];
    for (size_t length = 0; length < size; length++)
        read_once(call, what, bytes, length, count, JAMBCOPPER_BAD_BYTES, words, count);
    for (size_t longer = 0; longer <= 2; longer++)
        read_once(call, what, bytes, size + longer, count, due, words, count);
    for (size_t has_room = 0; has_room <= count + 1; has_room++)
        read_once(call, what, bytes, size, has_room, has_room < count ? JAMBCOPPER_BAD_BYTES : due, words, count);
    for (size_t at = padding; at < padding + 6; at++) {
        memcpy(spoiled, bytes, size);
        spoiled[at] = (uint8_t)(1 << any() % 8);
        read_once(call, what, spoiled, size, count, JAMBCOPPER_BAD_BYTES, words, count);
        spoiled[at] = (uint8_t)(1 + any() % 255);
        read_once(call, what, spoiled, size, count, JAMBCOPPER_BAD_BYTES, words, count);
    }
}

static void read_response(uint16_t type, uint16_t of_state, bool all)
{
    struct {
        struct virtio_mem_resp response;
        uint8_t behind[2];
    } laid = { { .type = htole16(type), .u.state.state = htole16(of_state) }, { (uint8_t)any(), (uint8_t)any() } };
    const uint64_t words[JAMBCOPPER_RESPONSE_WORDS] = { type, of_state };
    uint64_t due = type > VIRTIO_MEM_RESP_ERROR || of_state > VIRTIO_MEM_STATE_MIXED ? JAMBCOPPER_BAD_BYTES : 0;
    if (all)
        read_all(jambcopper_driver_read_response, "a response is read otherwise", (const uint8_t *)&laid,
                 sizeof laid.response, offsetof(struct virtio_mem_resp, padding), due, words, JAMBCOPPER_RESPONSE_WORDS);
    else
        read_once(jambcopper_driver_read_response, "a response is read otherwise", (const uint8_t *)&laid,
                  sizeof laid.response, JAMBCOPPER_RESPONSE_WORDS, due, words, JAMBCOPPER_RESPONSE_WORDS);
}

static void lay_config(struct virtio_mem_config *config, const uint64_t words[JAMBCOPPER_CONFIG_WORDS])
{
    memset(config, 0, sizeof *config);
    config->block_size = htole64(words[JAMBCOPPER_RECORD_BLOCK_SIZE]);
    config->node_id = htole16((uint16_t)words[JAMBCOPPER_RECORD_NODE_ID]);
    config->addr = htole64(words[JAMBCOPPER_RECORD_START]);
    config->region_size = htole64(words[JAMBCOPPER_RECORD_REGION_SIZE]);
    config->usable_region_size = htole64(words[JAMBCOPPER_RECORD_USABLE_SIZE]);
    config->plugged_size = htole64(words[JAMBCOPPER_RECORD_PLUGGED_SIZE]);
    config->requested_size = htole64(words[JAMBCOPPER_RECORD_REQUESTED_SIZE]);
}

/* A plan with no block plugged in a region of 256 MiB, and one with a bitmap of no byte. */
static uint64_t plan_free(const uint8_t *bytes, size_t byte_count, uint64_t *words, size_t word_count)
{
    static const uint8_t none[8];
    return jambcopper_driver_plan(bytes, byte_count, lent(BITMAP, none, sizeof none), sizeof none, words, word_count);
}

static uint64_t plan_short(const uint8_t *bytes, size_t byte_count, uint64_t *words, size_t word_count)
{
    return jambcopper_driver_plan(bytes, byte_count, room(BITMAP, 0), 0, words, word_count);
}

static void read_config(void)
{
    struct {
        struct virtio_mem_config config;
        uint8_t behind[2];
    } laid;
    const uint8_t *bytes = (const uint8_t *)&laid;
    const size_t size = sizeof laid.config, padding = offsetof(struct virtio_mem_config, padding);
    uint64_t words[JAMBCOPPER_CONFIG_WORDS];
    memset(&laid, 0xff, sizeof laid);
    for (size_t i = 0; i < JAMBCOPPER_CONFIG_WORDS; i++)
        words[i] = number();
    words[JAMBCOPPER_RECORD_NODE_ID] &= 0xffff;
    lay_config(&laid.config, words);
    read_all(jambcopper_driver_read_config, "a config is read otherwise", bytes, size, padding, JAMBCOPPER_DONE, words,
             JAMBCOPPER_CONFIG_WORDS);
    /* A plan tests the bytes before the fields, and those before the bitmap: 16, 12, 11, 17. */
    words[JAMBCOPPER_RECORD_BLOCK_SIZE] |= 1;
    lay_config(&laid.config, words);
    read_all(plan_short, "a plan is made otherwise of fields that are none", bytes, size, padding, JAMBCOPPER_BAD_RECORD,
             NULL, JAMBCOPPER_PLUG_WORDS);
    uint64_t blocks = any() % 65;
    const uint64_t fields[] = { BLOCK, any() & 0xffff, any() % 8192 << 27, 64 * BLOCK, 64 * BLOCK, 0, blocks * BLOCK };
    const uint64_t plug[JAMBCOPPER_PLUG_WORDS] = { fields[JAMBCOPPER_RECORD_START], blocks };
    lay_config(&laid.config, fields);
    read_all(plan_short, "a plan is made otherwise of a short bitmap", bytes, size, padding, JAMBCOPPER_SHORT_TABLE, NULL,
             JAMBCOPPER_PLUG_WORDS);
    read_all(plan_free, "a plan is made otherwise of a free region", bytes, size, padding,
             blocks == 0 ? JAMBCOPPER_NO_PLUG : JAMBCOPPER_DONE, plug, JAMBCOPPER_PLUG_WORDS);
}

static int all_bytes(uint64_t count, uint64_t seed)
{
    state = seed * UINT64_C(0x9e3779b97f4a7c15) + 1;
    for (unsigned n = 0; n < 65536; n++) {
        write_request((uint16_t)n, any(), (uint16_t)any(), false);
        write_request((uint16_t)(any() % 4), any(), (uint16_t)n, false);
        read_response((uint16_t)n, (uint16_t)(any() % 3), false);
        read_response((uint16_t)(any() % 4), (uint16_t)n, false);
    }
    uint64_t requests = compared;
    for (uint64_t n = 0; n < count; n++)
        write_request((uint16_t)(n % 8 == 0 ? number() : n % 8), number(), (uint16_t)number(), true);
    for (uint16_t type = 0; type < 6; type++)
        for (uint16_t of_state = 0; of_state < 5; of_state++)
            read_response(type, of_state, true);
    for (uint64_t n = 0; n < count; n++) {
        read_response((uint16_t)(any() % 5), (uint16_t)(any() % 4), true);
        read_config();
    }
    printf("driver, seed %" PRIu64 ": %" PRIu64 " calls on every type, state and number of blocks, %" PRIu64 " on %" PRIu64
           " random requests, responses and configs, by <linux/virtio_mem.h>: %" PRIu64 " differ\n",
           seed, requests, compared - requests, count, differ);
    return differ > 0;
}

/* ---- plans */

/* A number of 4 MiB, with bytes behind a + where it has some. */
static uint64_t size_at(char **at)
{
    uint64_t size = strtoull(*at, at, 10) * BLOCK;
    return **at == '+' ? size + strtoull(*at + 1, at, 10) : size;
}

static int all_plans(void)
{
    char *line = NULL;
    size_t capacity = 0, bitmap_bytes = 0;
    ssize_t length;
    const uint8_t *bitmap = room(BITMAP, 0);
    while ((length = getline(&line, &capacity, stdin)) > 0) {
        if (line[length - 1] != '\n')
            die("the last line is not whole");
        line[--length] = 0;
        if (strchr(line, ' ') == NULL) {
            if (length % 8 != 0)
                die("a bitmap that is no whole bytes");
            bitmap_bytes = (size_t)length / 8;
            uint8_t *bits = memset(room(BITMAP, bitmap_bytes), 0, bitmap_bytes);
            for (ssize_t block = 0; block < length; block++)
                bits[block / 8] |= (uint8_t)((line[block] == '1') << block % 8);
            bitmap = bits;
            puts(line);
            continue;
        }
        char *at = line;
        uint64_t words[JAMBCOPPER_CONFIG_WORDS];
        for (size_t i = 0; i < JAMBCOPPER_CONFIG_WORDS; i++)
            words[i] = i == JAMBCOPPER_RECORD_NODE_ID ? strtoull(at, &at, 10) : size_at(&at);
        if (*at != 0)
            die("a line that is no config");
        struct virtio_mem_config config;
        lay_config(&config, words);
        uint64_t *plug = junk(JAMBCOPPER_PLUG_WORDS);
        uint64_t given = jambcopper_driver_plan(lent(BYTES, &config, sizeof config), sizeof config, bitmap, bitmap_bytes,
                                                plug, JAMBCOPPER_PLUG_WORDS);
        uint64_t address = plug[JAMBCOPPER_PLUG_ADDRESS], blocks = plug[JAMBCOPPER_PLUG_BLOCKS];
        if (given != JAMBCOPPER_DONE)
            printf("%s: %" PRIu64 "%s\n", line, given, address == JUNK && blocks == JUNK ? "" : " and words");
        else if (address % BLOCK != 0)
            printf("%s: %" PRIu64 "+%" PRIu64 " %" PRIu64 "\n", line, address / BLOCK, address % BLOCK, blocks);
        else
            printf("%s: %" PRIu64 " %" PRIu64 "\n", line, address / BLOCK, blocks);
    }
    free(line);
    return ferror(stdin) || fflush(stdout) != 0 ? 2 : 0;
}

int main(int argc, char **argv)
{
    if (argc == 4 && strcmp(argv[1], "bytes") == 0)
        return all_bytes(strtoull(argv[2], NULL, 10), strtoull(argv[3], NULL, 10));
    if (argc == 2 && strcmp(argv[1], "plans") == 0)
        return all_plans();
    die("driver bytes COUNT SEED, or driver plans");
}
