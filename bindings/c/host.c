/* SPDX-License-Identifier: Apache-2.0 AND BSD-3-Clause */
/*
 * A small real host: it creates the device's memory with memfd_create and mmap, gives it back by punching a hole into
 * the memfd (fallocate), and plays a guest that plugs, touches and unplugs it by a split queue, which the kernel's
 * header lays out (vring_init). The guest's requests are written, and what it reads is read, by jambcopper_driver_...
 * At last the device is saved as text, which it prints, and restored on another host.
 * The numbers that it prints are the kernel's: how much memory the memfd holds (st_blocks); and what the guest reads.
 */
#define _GNU_SOURCE
#include "jambcopper.h"

#include <fcntl.h>
#include <inttypes.h>
#include <linux/virtio_mem.h>
#include <linux/virtio_ring.h>
#include <stdio.h>
#include <stdlib.h>
#include <string.h>
#include <sys/mman.h>
#include <sys/stat.h>
#include <unistd.h>

#define MIB UINT64_C(1048576)
/* The guest's own memory, which has the queue and the requests, and where the region of the device lies. */
#define RAM_BASE UINT64_C(0x40000000)
#define REGION_START UINT64_C(0x100000000)

/* A request, and room for its response. */
struct exchange {
    uint8_t request[JAMBCOPPER_REQUEST_BYTES];
    uint8_t response[JAMBCOPPER_RESPONSE_BYTES];
};

/* The guest's memory: its queue, and an exchange for each two descriptors. */
#define RING_ALIGNMENT 4096
#define EXCHANGES (JAMBCOPPER_QUEUE_SIZE / 2)
#define EXCHANGES_AT (2 * RING_ALIGNMENT)
#define RAM_SIZE (EXCHANGES_AT + EXCHANGES * sizeof(struct exchange))

/* The guest's driver. Both indices count what it has ever put in or taken out, and wrap. */
struct guest {
    uint8_t *ram;
    struct vring ring;
    struct exchange *exchanges;
    uint16_t put;
    uint16_t taken;
    uint64_t response[JAMBCOPPER_RESPONSE_WORDS]; /* the last that it read */
    uint8_t config[JAMBCOPPER_CONFIG_BYTES];      /* as it read it last, and its fields */
    uint64_t fields[JAMBCOPPER_CONFIG_WORDS];
    uint8_t believed[JAMBCOPPER_MAX_BITMAP_BYTES]; /* the blocks that it takes for plugged */
};

/* What a host keeps for a device. */
struct host {
    uint64_t record[JAMBCOPPER_RECORD_WORDS];
    uint64_t queue[JAMBCOPPER_QUEUE_WORDS];
    uint8_t bitmap[JAMBCOPPER_MAX_BITMAP_BYTES];
    uint64_t table[JAMBCOPPER_ROW_WORDS];
    uint64_t answer[JAMBCOPPER_ANSWER_WORDS];
    struct guest guest;
    int memfd;
    uint8_t *memory;
    unsigned refuse; /* which of the next discards is refused, from 1 on; 0 for none */
    uint64_t why;    /* the last request's reason, which the guest is not told */
};

static void fail(const char *what)
{
    perror(what);
    exit(1);
}

static void expect(bool holds, const char *what)
{
    if (!holds) {
        fprintf(stderr, "host: %s\n", what);
        exit(1);
    }
}

/* Creation: the memory that the device asks for, of which the kernel holds nothing until it is touched. */
static bool create(struct host *h)
{
    uint64_t size = h->answer[JAMBCOPPER_ANSWER_SIZE];
    h->memfd = memfd_create("virtio-mem", MFD_CLOEXEC);
    if (h->memfd < 0 || ftruncate(h->memfd, (off_t)size) != 0)
        return false;
    void *memory = mmap(NULL, size, PROT_READ | PROT_WRITE, MAP_SHARED, h->memfd, 0);
    if (memory == MAP_FAILED)
        return false;
    h->memory = memory;
    return true;
}

/* Discard: the memory goes back to the kernel. A hole in the memfd is one in every mapping of it. */
static bool discard(struct host *h)
{
    if (h->refuse > 0 && --h->refuse == 0)
        return false;
    uint64_t offset = h->answer[JAMBCOPPER_ANSWER_WHERE] - (uint64_t)(uintptr_t)h->memory;
    return fallocate(h->memfd, FALLOC_FL_PUNCH_HOLE | FALLOC_FL_KEEP_SIZE, (off_t)offset,
                     (off_t)h->answer[JAMBCOPPER_ANSWER_SIZE]) == 0;
}

/* Answers what the device asks, until it asks no more. */
static void answer_all(struct host *h)
{
    for (;;) {
        uint64_t kind = h->answer[JAMBCOPPER_ANSWER_KIND];
        bool ok;
        if (kind == JAMBCOPPER_KIND_CREATE)
            ok = create(h);
        else if (kind == JAMBCOPPER_KIND_DISCARD)
            ok = discard(h);
        else
            return;
        jambcopper_serve_answer(h->record, JAMBCOPPER_RECORD_WORDS, h->queue, JAMBCOPPER_QUEUE_WORDS, h->bitmap,
                                sizeof h->bitmap, h->table, JAMBCOPPER_ROW_WORDS, h->guest.ram, RAM_SIZE, RAM_BASE, ok,
                                (uint64_t)(uintptr_t)h->memory, h->answer, JAMBCOPPER_ANSWER_WORDS);
    }
}

/* Serves the guest's queue until it is empty, as a host does when the guest notifies it. */
static void serve_all(struct host *h)
{
    for (;;) {
        uint64_t refused = jambcopper_serve(h->record, JAMBCOPPER_RECORD_WORDS, h->queue, JAMBCOPPER_QUEUE_WORDS,
                                            h->bitmap, sizeof h->bitmap, h->table, JAMBCOPPER_ROW_WORDS, h->guest.ram,
                                            RAM_SIZE, RAM_BASE, h->answer, JAMBCOPPER_ANSWER_WORDS);
        expect(refused == JAMBCOPPER_DONE, "the queue is refused");
        if (h->answer[JAMBCOPPER_ANSWER_KIND] == JAMBCOPPER_KIND_EMPTY)
            return;
        answer_all(h);
        expect(h->answer[JAMBCOPPER_ANSWER_KIND] == JAMBCOPPER_KIND_SERVED, "a request is not served");
        h->why = h->answer[JAMBCOPPER_ANSWER_WHY];
        /* Here a host with vCPUs notifies the guest. */
    }
}

static uint64_t address(const struct guest *g, const void *in_ram)
{
    return RAM_BASE + (uint64_t)((const uint8_t *)in_ram - g->ram);
}

/* The guest lays out its queue, and tells the host where the three parts are. */
static void set_up(struct host *h)
{
    struct guest *g = &h->guest;
    g->ram = mmap(NULL, RAM_SIZE, PROT_READ | PROT_WRITE, MAP_PRIVATE | MAP_ANONYMOUS, -1, 0);
    if (g->ram == MAP_FAILED)
        fail("mmap");
    vring_init(&g->ring, JAMBCOPPER_QUEUE_SIZE, g->ram, RING_ALIGNMENT);
    g->exchanges = (struct exchange *)(g->ram + EXCHANGES_AT);
    expect(jambcopper_queue_make(h->queue, JAMBCOPPER_QUEUE_WORDS, address(g, g->ring.desc), address(g, g->ring.avail),
                                 address(g, g->ring.used)) == 0,
           "no queue");
}

/* The guest puts a request into the available ring: a chain of two descriptors, the entry, then the index. */
static void put(struct guest *g, uint16_t type, uint64_t addr, uint16_t blocks)
{
    uint16_t head = (uint16_t)(2 * (g->put % EXCHANGES));
    struct exchange *e = &g->exchanges[g->put % EXCHANGES];
    expect(jambcopper_driver_write_request(e->request, sizeof e->request, type, addr, blocks) == 0, "no request");
    memset(e->response, 0xff, sizeof e->response); /* which is no response */
    g->ring.desc[head] = (struct vring_desc){
        .addr = address(g, e->request), .len = sizeof e->request, .flags = VRING_DESC_F_NEXT, .next = head + 1
    };
    g->ring.desc[head + 1] =
        (struct vring_desc){ .addr = address(g, e->response), .len = sizeof e->response, .flags = VRING_DESC_F_WRITE };
    g->ring.avail->ring[g->put % JAMBCOPPER_QUEUE_SIZE] = head;
    g->ring.avail->idx = ++g->put;
}

/* The guest takes the next element out of the used ring, which is its oldest request, and reads the response. */
static uint64_t take(struct guest *g)
{
    expect(g->ring.used->idx != g->taken, "the used ring has no more");
    const struct vring_used_elem *used = &g->ring.used->ring[g->taken % JAMBCOPPER_QUEUE_SIZE];
    const struct exchange *e = &g->exchanges[g->taken % EXCHANGES];
    expect(used->id == 2u * (g->taken % EXCHANGES), "another head is used");
    expect(used->len == sizeof e->response, "the response is not delivered");
    expect(jambcopper_driver_read_response(e->response, sizeof e->response, g->response,
                                           JAMBCOPPER_RESPONSE_WORDS) == 0,
           "no response");
    g->taken++;
    return g->response[JAMBCOPPER_RESPONSE_TYPE];
}

/* The guest asks, and the host serves it. */
static uint64_t ask(struct host *h, uint16_t type, uint64_t addr, uint16_t blocks)
{
    put(&h->guest, type, addr, blocks);
    serve_all(h);
    uint64_t response = take(&h->guest);
    expect(h->guest.ring.used->idx == h->guest.taken, "the used ring has more than was asked");
    return response;
}

/* The guest asks for what is refused, and the host knows why. */
static void ask_in_vain(struct host *h, uint16_t type, uint64_t addr, uint16_t blocks, uint64_t why, const char *what)
{
    expect(ask(h, type, addr, blocks) == VIRTIO_MEM_RESP_ERROR, what);
    expect(h->why == why, "a refusal has another reason");
}

/* The guest reads its config. */
static const uint64_t *read_config(struct host *h)
{
    struct guest *g = &h->guest;
    expect(jambcopper_read_config(h->record, JAMBCOPPER_RECORD_WORDS, 0, g->config, sizeof g->config) == 0,
           "the config is not read");
    expect(jambcopper_driver_read_config(g->config, sizeof g->config, g->fields, JAMBCOPPER_CONFIG_WORDS) == 0,
           "no config");
    return g->fields;
}

/* How many bytes the kernel holds for the device, and how many the guest reads as plugged. */
static void print(struct host *h, const char *when)
{
    struct stat s;
    if (fstat(h->memfd, &s) != 0)
        fail("fstat");
    printf("%-22s held=%" PRIu64 " KiB plugged=%" PRIu64 " KiB\n", when, (uint64_t)s.st_blocks / 2,
           read_config(h)[JAMBCOPPER_RECORD_PLUGGED_SIZE] / 1024);
}

static void believe(struct guest *g, uint64_t first, uint64_t blocks)
{
    for (uint64_t block = first; block < first + blocks; block++)
        g->believed[block / 8] |= (uint8_t)(1 << block % 8);
}

/* The guest asks which blocks are plugged, of those that it may plug. */
static void learn(struct host *h)
{
    uint64_t blocks = read_config(h)[JAMBCOPPER_RECORD_USABLE_SIZE] / JAMBCOPPER_BLOCK_SIZE;
    for (uint64_t block = 0; block < blocks; block++) {
        expect(ask(h, VIRTIO_MEM_REQ_STATE, REGION_START + block * JAMBCOPPER_BLOCK_SIZE, 1) == VIRTIO_MEM_RESP_ACK,
               "no state");
        if (h->guest.response[JAMBCOPPER_RESPONSE_STATE] == VIRTIO_MEM_STATE_PLUGGED)
            believe(&h->guest, block, 1);
    }
}

/* The guest plugs what is proposed to it, which is acknowledged, until there is nothing to propose. */
static void plan_all(struct host *h)
{
    struct guest *g = &h->guest;
    for (;;) {
        read_config(h);
        uint64_t plug[JAMBCOPPER_PLUG_WORDS];
        uint64_t refused = jambcopper_driver_plan(g->config, sizeof g->config, g->believed, sizeof g->believed, plug,
                                                  JAMBCOPPER_PLUG_WORDS);
        if (refused == JAMBCOPPER_NO_PLUG)
            return;
        expect(refused == JAMBCOPPER_DONE, "no plan");
        uint64_t first = (plug[JAMBCOPPER_PLUG_ADDRESS] - REGION_START) / JAMBCOPPER_BLOCK_SIZE;
        uint16_t blocks = (uint16_t)plug[JAMBCOPPER_PLUG_BLOCKS];
        expect(ask(h, VIRTIO_MEM_REQ_PLUG, plug[JAMBCOPPER_PLUG_ADDRESS], blocks) == VIRTIO_MEM_RESP_ACK,
               "a plug that was proposed");
        believe(g, first, blocks);
        char when[64];
        snprintf(when, sizeof when, "planned %u from block %" PRIu64, blocks, first);
        print(h, when);
    }
}

/* A device of 256 MiB, with its memory and its guest. */
static void begin(struct host *h, uint64_t requested_mib)
{
    const uint32_t slots[] = { 1 };
    expect(jambcopper_make(h->record, JAMBCOPPER_RECORD_WORDS, 256, requested_mib, false, false, 0, 1024 * MIB) == 0,
           "not made");
    set_up(h);
    expect(jambcopper_place(h->record, JAMBCOPPER_RECORD_WORDS, h->bitmap, sizeof h->bitmap, h->table,
                            JAMBCOPPER_ROW_WORDS, REGION_START, h->record[JAMBCOPPER_RECORD_REGION_SIZE], slots, 1,
                            h->answer, JAMBCOPPER_ANSWER_WORDS) == 0,
           "not placed");
    answer_all(h);
    expect(h->answer[JAMBCOPPER_ANSWER_KIND] == JAMBCOPPER_KIND_SIZED, "no memory was created");
}

/* The text of the device, in memory of its own. */
static uint8_t *save(const struct host *h, uint64_t *length)
{
    expect(jambcopper_save_length(h->record, JAMBCOPPER_RECORD_WORDS, h->bitmap, sizeof h->bitmap, length, 1) == 0,
           "no length");
    uint8_t *text = malloc(*length);
    if (text == NULL)
        fail("malloc");
    expect(jambcopper_save(h->record, JAMBCOPPER_RECORD_WORDS, h->bitmap, sizeof h->bitmap, text, *length, length,
                           1) == 0,
           "not saved");
    return text;
}

int main(void)
{
    static struct host h;
    const uint64_t block = JAMBCOPPER_BLOCK_SIZE;

    begin(&h, 64);
    print(&h, "before the plug");

    expect(ask(&h, VIRTIO_MEM_REQ_PLUG, REGION_START, 8) == VIRTIO_MEM_RESP_ACK, "no plug");
    memset(h.memory, 0x5a, 8 * block);
    print(&h, "plugged and touched");

    expect(ask(&h, VIRTIO_MEM_REQ_UNPLUG, REGION_START + 2 * block, 3) == VIRTIO_MEM_RESP_ACK, "no unplug");
    print(&h, "unplugged 3 of 8");

    h.refuse = 1;
    ask_in_vain(&h, VIRTIO_MEM_REQ_UNPLUG, REGION_START, 2, JAMBCOPPER_WHY_FAILED_DISCARD,
                "an unplug that the host refused");
    print(&h, "unplug host refused");

    ask_in_vain(&h, VIRTIO_MEM_REQ_UNPLUG, REGION_START + block, 4, JAMBCOPPER_WHY_BLOCK_STATE,
                "an unplug that is illegal");
    print(&h, "unplug device refused");

    /* Of five blocks the first is given back: what is held and what is plugged go together, and there is room again. */
    h.refuse = 2;
    ask_in_vain(&h, VIRTIO_MEM_REQ_UNPLUG_ALL, 0, 0, JAMBCOPPER_WHY_FAILED_DISCARD,
                "an unplug-all that the host refused");
    print(&h, "unplug-all refused");

    expect(ask(&h, VIRTIO_MEM_REQ_PLUG, REGION_START + 8 * block, 12) == VIRTIO_MEM_RESP_ACK, "no plug again");
    print(&h, "plugged again");

    expect(ask(&h, VIRTIO_MEM_REQ_UNPLUG_ALL, 0, 0) == VIRTIO_MEM_RESP_ACK, "no unplug-all");
    print(&h, "unplugged all");

    /* Three requests, and one notification. */
    put(&h.guest, VIRTIO_MEM_REQ_PLUG, REGION_START, 8);
    put(&h.guest, VIRTIO_MEM_REQ_UNPLUG, REGION_START, 3);
    put(&h.guest, VIRTIO_MEM_REQ_PLUG, REGION_START + 4 * block, 1);
    serve_all(&h);
    expect(take(&h.guest) == VIRTIO_MEM_RESP_ACK, "no plug of three");
    expect(take(&h.guest) == VIRTIO_MEM_RESP_ACK, "no unplug of three");
    expect(take(&h.guest) == VIRTIO_MEM_RESP_ERROR, "a plug of what is plugged");
    expect(h.why == JAMBCOPPER_WHY_BLOCK_STATE, "a plug of what is plugged has another reason");
    print(&h, "three requests at once");

    /* Blocks 3 to 7 are plugged, and 16 is what the guest is asked to have. */
    learn(&h);
    plan_all(&h);
    print(&h, "no plug to propose");

    /* The device goes to another host, which has placed one like it: blocks, requested and plugged size go along. */
    expect(ask(&h, VIRTIO_MEM_REQ_UNPLUG, REGION_START + 2 * block, 3) == VIRTIO_MEM_RESP_ACK, "no unplug to save");
    uint64_t length;
    uint8_t *text = save(&h, &length);
    printf("saved as\n%.*s", (int)length, (const char *)text);
    static struct host other;
    begin(&other, 16);
    print(&other, "another host");
    expect(jambcopper_restore(other.record, JAMBCOPPER_RECORD_WORDS, other.bitmap, sizeof other.bitmap, text,
                              length) == 0,
           "not restored");
    print(&other, "restored");
    ask_in_vain(&other, VIRTIO_MEM_REQ_PLUG, REGION_START + block, 2, JAMBCOPPER_WHY_BLOCK_STATE,
                "a plug that is illegal");
    expect(ask(&other, VIRTIO_MEM_REQ_PLUG, REGION_START + 2 * block, 3) == VIRTIO_MEM_RESP_ACK, "no plug elsewhere");
    print(&other, "plugged again");
    free(text);
    return 0;
}
