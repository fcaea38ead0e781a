/* SPDX-License-Identifier: Apache-2.0 AND BSD-3-Clause */
/*
 * Jambcopper, a proved virtio-mem device, for C: what target/staticlib/libjambcopper.a exports, to x86-64 programs.
 *
 * The device has no memory of its own. The caller keeps, and lends to each call:
 *   - the record, JAMBCOPPER_RECORD_WORDS words;
 *   - the queue, JAMBCOPPER_QUEUE_WORDS words, where the library goes over the guest's queue;
 *   - the bitmap, one bit a block of 4 MiB: block 8j+k is bit k of byte j, set when plugged;
 *   - the map table, JAMBCOPPER_ROW_WORDS words a row;
 *   - guest memory: a slice, and the guest address of its first byte.
 * The guest's side, jambcopper_driver_.., knows no device and keeps nothing: it writes the bytes of a request, reads
 * those of a response and of a config, and proposes the next plug.
 * A save record is the state of a device as text: a device is saved as one and restored from one, and the old form, a
 * byte for each block, is moved into it and back.
 *
 * A slice is a pointer and how many elements it has. Elements that a call has no use for are not touched.
 * Any contents are allowed, every one of them: words that are no record or no queue are refused with 12, a table that
 * is too short with 11, bytes that are no response or no config with 16, and those that are no save record with 18.
 * Two slices of one call must not overlap, and a pointer is never NULL.
 *
 * What is proved of every run of calls (docs/GUIDE.md) holds where each call is lent the record that the call before it
 * left and, while the device is placed or a host call is pending, the bitmap and the map table that were left. Before
 * that, and after a placing that failed, any bitmap and table will do. Where the device serves a queue, the same goes
 * for the queue's words.
 *
 * What is lent must not change during a call, by anyone but the call. For guest memory that means: no vCPU writes the
 * slice before the call returns. A call may read a byte twice, and what is proved of it does not hold where the byte
 * has changed in between.
 *
 * A call never calls back. Where the host must do something, the call asks a question in its answer, the record
 * holds it as pending, and the host answers it by jambcopper_host_answer, or jambcopper_serve_answer where it has a
 * queue here. Until then only these two, jambcopper_read_config and jambcopper_write_config are served; the other calls
 * of the device are refused with 7.
 *
 * Each function returns the number of its refusal, or 0. A refused call changes nothing but the answer, which is
 * written in any case, where the function takes one; after 10 alone more has changed, and the numbers below say what.
 * A refused call of the guest's side changes nothing at all, and one about a save record nothing but its scratch.
 */
#ifndef JAMBCOPPER_H
#define JAMBCOPPER_H

#include <stdbool.h>
#include <stddef.h>
#include <stdint.h>

#ifdef __cplusplus
extern "C" {
#endif

/* ---- sizes */

/* The block: what is plugged and unplugged. */
#define JAMBCOPPER_BLOCK_SIZE UINT64_C(4194304)
/* The map region: what one row of the map table maps, where a device has several. */
#define JAMBCOPPER_MAP_REGION_SIZE UINT64_C(2147483648)
/* The largest capacity: 1 TiB, in MiB. */
#define JAMBCOPPER_MAX_CAPACITY_MIB UINT64_C(1048576)
/* A bitmap of so many bytes is long enough for every device; one needs a byte for each 8 blocks of its region. */
#define JAMBCOPPER_MAX_BITMAP_BYTES 32768
/* A row of the map table: slot, mapped (0 no, else yes), host address. */
#define JAMBCOPPER_ROW_WORDS 3
/* A map table of so many words is long enough for every device; one needs a row for each map region, or one row
 * where it has a single region. */
#define JAMBCOPPER_MAX_TABLE_WORDS 1536
/* The config space, struct virtio_mem_config; a request, struct virtio_mem_req; a response, struct virtio_mem_resp. */
#define JAMBCOPPER_CONFIG_BYTES 56
#define JAMBCOPPER_REQUEST_BYTES 24
#define JAMBCOPPER_RESPONSE_BYTES 10
/* The guest's split queue: the entries of its descriptor table and of each ring, and the bytes of the two rings. */
#define JAMBCOPPER_QUEUE_SIZE 128
#define JAMBCOPPER_AVAILABLE_BYTES 262
#define JAMBCOPPER_USED_BYTES 1030
/* A text of so many bytes is long enough for every save record: the longest is that of 1 TiB with every other block
 * plugged. Bytes of the old form, one a block, are never more than the blocks of 1 TiB. */
#define JAMBCOPPER_SAVE_MAX_TEXT_BYTES 1648502
#define JAMBCOPPER_SAVE_MAX_OLD_BYTES 262144
/* The scratch that a move of a save record takes. What it holds before does not matter; a move that is done leaves the
 * blocks in it, packed as in a bitmap. */
#define JAMBCOPPER_SAVE_SCRATCH 32768

/* ---- the record: which word is what. It may be read, copied, stored and put back. */

#define JAMBCOPPER_RECORD_WORDS 15
#define JAMBCOPPER_RECORD_BLOCK_SIZE 0     /* bytes; always 4 MiB */
#define JAMBCOPPER_RECORD_NODE_ID 1        /* below 65536; 0 where no node was given */
#define JAMBCOPPER_RECORD_START 2          /* guest address of the region: 0 when made; a failed placing leaves it */
#define JAMBCOPPER_RECORD_REGION_SIZE 3    /* bytes */
#define JAMBCOPPER_RECORD_USABLE_SIZE 4    /* bytes from the start on that the guest may plug; never shrinks */
#define JAMBCOPPER_RECORD_PLUGGED_SIZE 5   /* bytes */
#define JAMBCOPPER_RECORD_REQUESTED_SIZE 6 /* bytes; the only lever */
#define JAMBCOPPER_RECORD_ALIGNMENT 7      /* bytes: 128, 256, 512 MiB, 1 or 2 GiB */
#define JAMBCOPPER_RECORD_MULTI_REGION 8   /* 1 several map regions, 0 a single one */
#define JAMBCOPPER_RECORD_FEATURES 9       /* feature bits to offer: 32, and 0 if a node was given */
#define JAMBCOPPER_RECORD_PLACED 10        /* 1 placed, 0 not */
#define JAMBCOPPER_RECORD_PENDING 11       /* one of JAMBCOPPER_PENDING_.. */
#define JAMBCOPPER_RECORD_FIRST 12         /* pending: first row (creation), or first block; else 0 */
#define JAMBCOPPER_RECORD_SECOND 13        /* pending: last row (creation), or how many blocks (unplug); else 0 */
#define JAMBCOPPER_RECORD_STATUS 14        /* pending discard: guest address of the response; else 0 */

#define JAMBCOPPER_PENDING_NOTHING 0     /* no host call is pending */
#define JAMBCOPPER_PENDING_CREATE 1      /* a creation, in placing or in a size change */
#define JAMBCOPPER_PENDING_DISCARD 2     /* the discard of an unplug */
#define JAMBCOPPER_PENDING_DISCARD_ONE 3 /* the discard of one block of an unplug-all */

/* ---- the queue: which word is what. It goes with the record from call to call, and is stored and put back with it.
 *
 * jambcopper_queue_make writes it when the guest has set up its queue. From then on, whenever the guest notifies the
 * host, the host calls jambcopper_serve until it answers empty. A call takes one head:
 *   - served, unserved: the head is in the used ring, and the host notifies the guest;
 *   - discard: the head is out. The host does what is asked and answers by jambcopper_serve_answer, which asks again
 *     (discard) or ends the request (served): only then is the head in the used ring, and the guest notified;
 *   - empty: there is no head;
 *   - refused: no head was taken. 14 and 15 do not stick: a later call is served where the rings are right by then.
 * While a head is out, no answer goes through jambcopper_host_answer: that would end the request and not report the
 * head, and the next call with the queue would be refused with 12.
 *
 * The device reads the available ring's index and entries, and writes the used ring's; flags and event indices are the
 * host's matter. bindings/c/host.c has such a loop. A host that goes over the rings itself has no queue here: it calls
 * jambcopper_request and jambcopper_host_answer.
 */

#define JAMBCOPPER_QUEUE_WORDS 6
#define JAMBCOPPER_QUEUE_DESCRIPTORS 0    /* guest address of the descriptor table */
#define JAMBCOPPER_QUEUE_AVAILABLE 1      /* guest address of the available ring */
#define JAMBCOPPER_QUEUE_USED 2           /* guest address of the used ring */
#define JAMBCOPPER_QUEUE_NEXT_AVAILABLE 3 /* index of the next head to take; below 65536 */
#define JAMBCOPPER_QUEUE_NEXT_USED 4      /* index of the next element to write; below 65536 */
#define JAMBCOPPER_QUEUE_TAKEN 5          /* the head that is out, plus 1; 0 where none is out */

/* ---- the answer: which word is what; a word that the kind has no use for is 0. A slice that is shorter gets the
 * words that fit. */

#define JAMBCOPPER_ANSWER_WORDS 9
#define JAMBCOPPER_ANSWER_KIND 0    /* one of JAMBCOPPER_KIND_.. */
#define JAMBCOPPER_ANSWER_NUMBER 1  /* refused: the number, as the call returns it */
#define JAMBCOPPER_ANSWER_ADDRESS 2 /* create: guest address; discard: offset in the region */
#define JAMBCOPPER_ANSWER_SIZE 3    /* create, discard: bytes */
#define JAMBCOPPER_ANSWER_WHERE 4   /* create: memory slot; discard: host address */
#define JAMBCOPPER_ANSWER_TYPE 5    /* served: the response's type, VIRTIO_MEM_RESP_.. */
#define JAMBCOPPER_ANSWER_STATE 6   /* served: the response's state, VIRTIO_MEM_STATE_.. */
#define JAMBCOPPER_ANSWER_LENGTH 7  /* served: used length, 10, or 0 where the response could not be delivered */
#define JAMBCOPPER_ANSWER_REASON 8  /* unserved: one of JAMBCOPPER_REASON_.. */
#define JAMBCOPPER_ANSWER_WHY 8     /* served: one of JAMBCOPPER_WHY_.., also where the length is 0 */

#define JAMBCOPPER_KIND_REFUSED 0  /* refused with the number */
#define JAMBCOPPER_KIND_CREATE 1   /* the host is to map memory at the guest address */
#define JAMBCOPPER_KIND_DISCARD 2  /* the host is to give back the memory at the host address */
#define JAMBCOPPER_KIND_SIZED 3    /* done: the usable size is worked out */
#define JAMBCOPPER_KIND_UNSERVED 4 /* the chain is no request: it is used with length 0 */
#define JAMBCOPPER_KIND_SERVED 5   /* the request has ended: the chain is used with the length */
#define JAMBCOPPER_KIND_EMPTY 7    /* the available ring has no head; the other words are 0 */

/* ---- the guest's side: which word is what. */

/* A response: its type, VIRTIO_MEM_RESP_.., and its state, VIRTIO_MEM_STATE_... */
#define JAMBCOPPER_RESPONSE_WORDS 2
#define JAMBCOPPER_RESPONSE_TYPE 0  /* 0 ACK, 1 NACK, 2 BUSY, 3 ERROR */
#define JAMBCOPPER_RESPONSE_STATE 1 /* 0 plugged, 1 unplugged, 2 mixed */

/* A config: the first words of a record, from JAMBCOPPER_RECORD_BLOCK_SIZE to JAMBCOPPER_RECORD_REQUESTED_SIZE. */
#define JAMBCOPPER_CONFIG_WORDS 7

/* A plug to ask for. */
#define JAMBCOPPER_PLUG_WORDS 2
#define JAMBCOPPER_PLUG_ADDRESS 0 /* guest address of the first block */
#define JAMBCOPPER_PLUG_BLOCKS 1  /* how many blocks; from 1 on, below 65536 */

/* ---- a save record: which word is what of the fields that a move is given or gives.
 *
 * The text is one field a line, each ended by a newline, the last too, its numbers decimal without leading zeros:
 *
 *     form=2
 *     start=4294967296
 *     region=268435456
 *     requested=67108864
 *     usable=268435456
 *     plugged=20971520
 *     run=0,2
 *     run=5,3
 *
 * with a run, its first block and how many, for each longest run of plugged blocks, lowest first. One state has one
 * text, and any other is refused: with 19 where it begins form=N and a newline and N is above 2, else with 18.
 *
 * The old form is a byte for each block of the region, 0 or 1 where it is plugged. It has no fields, so they are kept
 * beside it.
 *
 * A state has a text where a device with an alignment of 128 MiB and one region can have the fields, no block at or
 * past the usable size is plugged, and the plugged size is 4 MiB times the plugged blocks; else it is refused with 18.
 */

#define JAMBCOPPER_SAVE_FIELDS 6
#define JAMBCOPPER_SAVE_BLOCK_SIZE 0 /* always 4 MiB; not in the text */
#define JAMBCOPPER_SAVE_START 1      /* guest address of the region */
#define JAMBCOPPER_SAVE_REGION 2     /* bytes, as those that follow */
#define JAMBCOPPER_SAVE_REQUESTED 3
#define JAMBCOPPER_SAVE_USABLE 4
#define JAMBCOPPER_SAVE_PLUGGED 5

/* ---- the numbers. Order of the tests: 12 (record, queue), 7 or 8, 5 or 6, 11, then 14, 15, or 2, 1, 3, 4, 9; on the
 * guest's side 16, 12, 11, 17; of save records 12, 7, 11, 19, 18.
 *
 * 10 ends the call that asked for the creation, and leaves what that call has written:
 *   - a size change: the new requested size stands; the usable size and the map table do not change;
 *   - placing: the device is not placed; the start that was given, the rows and the bitmap stay as placing wrote them.
 *     Placing may be tried again.
 */

#define JAMBCOPPER_DONE 0            /* not refused */
#define JAMBCOPPER_BAD_SIZE 1        /* capacity 0, requested above the region, or requested not a multiple of 4 MiB */
#define JAMBCOPPER_TOO_LARGE 2       /* capacity above JAMBCOPPER_MAX_CAPACITY_MIB */
#define JAMBCOPPER_BAD_RANGE 3       /* slot count wrong, or range size not the region size */
#define JAMBCOPPER_BAD_START 4       /* start not a multiple of the alignment, or the range passes 2^64 - 1 */
#define JAMBCOPPER_NOT_PLACED 5      /* a request or size change before placing */
#define JAMBCOPPER_PLACED 6          /* placed already */
#define JAMBCOPPER_PENDING 7         /* a host call is pending */
#define JAMBCOPPER_NOT_PENDING 8     /* a host answer while no host call is pending */
#define JAMBCOPPER_BAD_HOST 9        /* the host address, plus the size asked, passes 2^64 - 1; the call stays pending */
#define JAMBCOPPER_CREATION_FAILED 10 /* the host could not create; nothing is pending any more: see above */
#define JAMBCOPPER_SHORT_TABLE 11    /* bitmap or map table too short */
#define JAMBCOPPER_BAD_RECORD 12     /* the words are no record or no queue, a head is out while no discard is pending,
                                      * or an unplug is larger than the plugged size; no device has that config */
#define JAMBCOPPER_RING_OUTSIDE 14   /* a ring is not wholly inside guest memory */
#define JAMBCOPPER_BAD_INDEX 15      /* the available ring's index is more than 128 ahead of the next head */
#define JAMBCOPPER_BAD_BYTES 16      /* bytes that are no response or no config, or no room for what is written */
#define JAMBCOPPER_NO_PLUG 17        /* no plug to propose */
#define JAMBCOPPER_BAD_SAVE 18       /* a text or old bytes that are no save record, a state that has none, a device that
                                      * a save record cannot be laid on, or no room for what is written */
#define JAMBCOPPER_LATER_FORM 19     /* a save record of a later form */

/* ---- why a chain is no request */

#define JAMBCOPPER_REASON_UNKNOWN_TYPE 0     /* request type 4 or more */
#define JAMBCOPPER_REASON_MISSING 21         /* first or second descriptor missing */
#define JAMBCOPPER_REASON_WRITE_ONLY 22      /* the first descriptor is write-only */
#define JAMBCOPPER_REASON_REQUEST_LENGTH 23  /* the first descriptor's length is not 24 */
#define JAMBCOPPER_REASON_REQUEST_OUTSIDE 24 /* the request is not inside guest memory */
#define JAMBCOPPER_REASON_NOT_WRITABLE 25    /* the second descriptor is not writable */
#define JAMBCOPPER_REASON_STATUS_SHORT 26    /* the second descriptor's length is under 10 */
#define JAMBCOPPER_REASON_INDIRECT 27        /* a descriptor has the indirect flag */

/* ---- why a request is ERROR: the first of these that applies, in their order. The guest is not told. A state request
 * has 1 to 6, an unplug-all 5 and 9 to 11. 9 and 10 take a map table that somebody else wrote: no run has them. */

#define JAMBCOPPER_WHY_NONE 0            /* the response is no ERROR; NACK is decided before the range is looked at */
#define JAMBCOPPER_WHY_ALIGNMENT 1       /* the address is not a multiple of 4 MiB */
#define JAMBCOPPER_WHY_ZERO_BLOCKS 2     /* it is for no blocks */
#define JAMBCOPPER_WHY_OVERFLOW 3        /* the address plus the size passes 2^64 - 1 */
#define JAMBCOPPER_WHY_BELOW_START 4     /* the range begins below the start of the region */
#define JAMBCOPPER_WHY_PAST_USABLE 5     /* the range begins at or past the end of the usable size */
#define JAMBCOPPER_WHY_END_PAST_USABLE 6 /* the range begins inside the usable size and ends past it */
#define JAMBCOPPER_WHY_BLOCK_STATE 7     /* a block is plugged already, or for an unplug is not plugged */
#define JAMBCOPPER_WHY_CROSSED_BORDER 8  /* the range crosses a 2 GiB border of offsets, with several map regions */
#define JAMBCOPPER_WHY_UNMAPPED_ROW 9    /* the row of the map table is not mapped */
#define JAMBCOPPER_WHY_HOST_SUM 10       /* the row's host address, with offset and size, passes 2^64 - 1 */
#define JAMBCOPPER_WHY_FAILED_DISCARD 11 /* the host could not discard */

/* ---- the calls */

/*
 * Makes a device: writes its record, not placed yet. 12 where the slice has no room for a record, 2, 1.
 *   capacity_mib, requested_mib  sizes in MiB
 *   several                      several map regions; kept only if the region exceeds 2 GiB
 *   node_given, node             the NUMA node, if there is one; node is not looked at otherwise
 *   boot                         the boot memory's size in bytes, which decides the alignment
 */
uint64_t jambcopper_make(uint64_t *record, size_t record_words, uint64_t capacity_mib, uint64_t requested_mib,
                         bool several, bool node_given, uint16_t node, uint64_t boot);

/*
 * Places the device in guest memory: clears the bitmap, writes each row of the map table (slot, not mapped), and asks
 * for the creation that must be first, if there is one. 12, 7, 6, 11, 3, 4.
 *   start, size  the range of guest addresses; size is the region size
 *   slots        a memory slot for each map region
 * Answer: refused, create, or sized.
 */
uint64_t jambcopper_place(uint64_t *record, size_t record_words, uint8_t *bitmap, size_t bitmap_bytes, uint64_t *table,
                          size_t table_words, uint64_t start, uint64_t size, const uint32_t *slots, size_t slot_count,
                          uint64_t *answer, size_t answer_words);

/*
 * Changes the requested size, to a number of MiB. The usable size grows with it, which may ask for a creation.
 * 12, 7, 5, 11, 1. Answer: refused, create, or sized.
 * The guest reads both sizes in its config, and the host must tell it that they have changed, by a configuration change
 * notification: where the answer is sized, now; where it is create, when that is answered, also where it failed (10).
 */
uint64_t jambcopper_set_requested_size(uint64_t *record, size_t record_words, const uint8_t *bitmap, size_t bitmap_bytes,
                                       const uint64_t *table, size_t table_words, uint64_t requested_mib,
                                       uint64_t *answer, size_t answer_words);

/*
 * Serves one chain, for a host that goes over the rings itself. 12, 7, 5, 11; and 12 for an otherwise legal unplug that
 * is larger than the plugged size.
 *   mem, base    guest memory, which no vCPU writes during the call, and the guest address of its first byte
 *   descriptors  guest address of the table of 128 descriptors
 *   head         index of the chain's first descriptor
 * Answer: refused, discard, unserved, or served. The response is written to guest memory; the chain is then to be put
 * on the used ring with the length of the answer.
 */
uint64_t jambcopper_request(uint64_t *record, size_t record_words, uint8_t *bitmap, size_t bitmap_bytes,
                            const uint64_t *table, size_t table_words, uint8_t *mem, size_t mem_bytes, uint64_t base,
                            uint64_t descriptors, uint16_t head, uint64_t *answer, size_t answer_words);

/*
 * The host's answer to the question that is pending. 12, 8, 11, 9, 10.
 *   mem, base  guest memory, as for a request, for the response to an unplug; a creation does not look at it
 *   ok         whether the host did what was asked
 *   host       creation: the host address of the memory; a discard does not look at it
 * Answer: refused, sized (creation), served (discard), or discard: the next block of an unplug-all. Each block of one
 * is unplugged, and its size taken off the plugged size, as its discard is answered; where a discard fails the request
 * ends with ERROR, and the blocks before it stay unplugged.
 */
uint64_t jambcopper_host_answer(uint64_t *record, size_t record_words, uint8_t *bitmap, size_t bitmap_bytes,
                                uint64_t *table, size_t table_words, uint8_t *mem, size_t mem_bytes, uint64_t base,
                                bool ok, uint64_t host, uint64_t *answer, size_t answer_words);

/*
 * Makes a queue: writes its words, both indices 0 and no head out. 12 where the slice has no room for a queue.
 *   descriptors, available, used  guest addresses of the three parts, as the guest has set them
 * The host makes it anew when the guest resets the device, and answers what is pending before that.
 */
uint64_t jambcopper_queue_make(uint64_t *queue, size_t queue_words, uint64_t descriptors, uint64_t available,
                               uint64_t used);

/*
 * Takes the next head of the guest's queue and serves its chain. 12, 7, 5, 11, 14, 15; and 12 for an otherwise legal
 * unplug that is larger than the plugged size.
 *   mem, base  guest memory, as for a request: one slice that has the rings, the table, the requests and the responses
 * Answer: refused, empty, discard, unserved, or served. Where the request has ended, its response is written, then the
 * head with the answer's length to the used ring, then the ring's index. A head that is no index of the table, and a
 * chain that is no request, are unserved and are put into the used ring with length 0.
 */
uint64_t jambcopper_serve(uint64_t *record, size_t record_words, uint64_t *queue, size_t queue_words, uint8_t *bitmap,
                          size_t bitmap_bytes, const uint64_t *table, size_t table_words, uint8_t *mem,
                          size_t mem_bytes, uint64_t base, uint64_t *answer, size_t answer_words);

/*
 * The host's answer to the question that is pending, as jambcopper_host_answer takes it. Where it ends the request of
 * the head that is out, that goes into the used ring as above. While a head is out 12, 8, 11, 14; after 14 the question
 * stays pending, and the head out. With none out, as for a creation, 12, 8, 11, 9, 10: no ring is tested or touched.
 * Answer: refused, sized, served, or discard.
 */
uint64_t jambcopper_serve_answer(uint64_t *record, size_t record_words, uint64_t *queue, size_t queue_words,
                                 uint8_t *bitmap, size_t bitmap_bytes, uint64_t *table, size_t table_words,
                                 uint8_t *mem, size_t mem_bytes, uint64_t base, bool ok, uint64_t host,
                                 uint64_t *answer, size_t answer_words);

/*
 * Reads the config space from an offset on: up to its end or the buffer's; the rest of the buffer stays. Nothing is
 * written from offset 56 on. 12.
 */
uint64_t jambcopper_read_config(const uint64_t *record, size_t record_words, uint64_t offset, uint8_t *data,
                                size_t data_bytes);

/* A write of the config space, which does nothing. 12. */
uint64_t jambcopper_write_config(const uint64_t *record, size_t record_words, uint64_t offset, const uint8_t *data,
                                 size_t data_bytes);

/* ---- the guest's side: what a driver, or a test that plays one, writes and reads. All of it is little-endian. */

/*
 * Writes the bytes of a request to the front of the slice, its padding zero; the rest of the slice stays. 16 where the
 * slice has fewer than JAMBCOPPER_REQUEST_BYTES.
 *   type             VIRTIO_MEM_REQ_.., or any other number
 *   address, blocks  the range, which an unplug-all does not look at
 */
uint64_t jambcopper_driver_write_request(uint8_t *bytes, size_t byte_count, uint16_t type, uint64_t address,
                                         uint16_t blocks);

/*
 * Reads a response from the front of the slice into JAMBCOPPER_RESPONSE_WORDS words. 16 where the bytes are fewer than
 * JAMBCOPPER_RESPONSE_BYTES, the type is above 3, the state above 2, or a byte of the padding, 2 to 7, is not zero; and
 * where the words have no room.
 */
uint64_t jambcopper_driver_read_response(const uint8_t *bytes, size_t byte_count, uint64_t *response,
                                         size_t response_words);

/*
 * Reads a config from the front of the slice into JAMBCOPPER_CONFIG_WORDS words. 16 where the bytes are fewer than
 * JAMBCOPPER_CONFIG_BYTES or a byte of the padding, 10 to 15, is not zero; and where the words have no room. Whether a
 * device can have that config is not tested.
 */
uint64_t jambcopper_driver_read_config(const uint8_t *bytes, size_t byte_count, uint64_t *config, size_t config_words);

/*
 * Proposes a plug, in JAMBCOPPER_PLUG_WORDS words: it starts at the lowest free block, and takes all blocks up to the
 * next plugged one, the next 2 GiB border of offsets, the usable end or the spent requested size, whichever is first. A
 * device with that config and bitmap, its memory mapped and no host call pending, acknowledges it.
 *   config  the bytes of the config, as the guest has read them
 *   bitmap  what the guest believes to be plugged, as a device's bitmap is: see above
 * 16 as where a config is read, and where the words have no room for a plug; 12 where no device has that config; 11
 * where the bitmap has fewer bits than the region has blocks; 17 exactly where no plug of one block is legal: no block
 * below the usable end is free, or the requested size is spent.
 */
uint64_t jambcopper_driver_plan(const uint8_t *config, size_t config_bytes, const uint8_t *bitmap, size_t bitmap_bytes,
                                uint64_t *plug, size_t plug_words);

/* ---- save records. A `length` without room for its one word is 18 too, before anything else is looked at, and so are
 * `fields` without room for JAMBCOPPER_SAVE_FIELDS words. */

/*
 * How many bytes the text of a device has, which is written to `length`. 12, 7, 11; 18 where the bitmap has another
 * number of blocks than the plugged size says, or one at or past the usable size, as only a spoiled one has.
 */
uint64_t jambcopper_save_length(const uint64_t *record, size_t record_words, const uint8_t *bitmap, size_t bitmap_bytes,
                                uint64_t *length, size_t length_words);

/*
 * Saves a device: writes its text to the front of the slice, whose rest stays, and how many bytes it has to `length`.
 * 12, 7, 11, 18 as above; 18 too where the slice is shorter than the text. The map table is not in the text.
 */
uint64_t jambcopper_save(const uint64_t *record, size_t record_words, const uint8_t *bitmap, size_t bitmap_bytes,
                         uint8_t *text, size_t text_bytes, uint64_t *length, size_t length_words);

/*
 * Restores a device from a text, all of the slice: sets its blocks in the bitmap, and the requested and plugged size.
 * The host is asked for nothing, and no usable size is worked out. 12, 7, 11, 19; 18 where the text is no save record,
 * or the device is not placed, has a block plugged or a plugged size, or has another start, another region or a smaller
 * usable size than the text. The device may have several regions, and any alignment.
 */
uint64_t jambcopper_restore(uint64_t *record, size_t record_words, uint8_t *bitmap, size_t bitmap_bytes,
                            const uint8_t *text, size_t text_bytes);

/*
 * Moves the old form into a text: written to the front of the slice, whose rest stays, and its bytes to `length`.
 *   fields   the words that the old form lacks
 *   old      the old bytes, exactly one for each block of the region
 *   scratch  JAMBCOPPER_SAVE_SCRATCH bytes
 * 11 where the scratch is shorter; 18 where the old bytes are of another number, one of them is above 1, fields and
 * blocks make no state, or the slice is shorter than the text.
 */
uint64_t jambcopper_old_to_new(const uint64_t *fields, size_t field_words, const uint8_t *old, size_t old_bytes,
                               uint8_t *scratch, size_t scratch_bytes, uint8_t *text, size_t text_bytes,
                               uint64_t *length, size_t length_words);

/*
 * Moves a text, all of the slice, into the old form: a byte for each block of the region, to the front of `old`, whose
 * rest stays, and the words of the fields. 11 where the scratch is shorter than JAMBCOPPER_SAVE_SCRATCH; 19; 18 where
 * the text is no save record, or `old` has fewer bytes than the region has blocks.
 */
uint64_t jambcopper_new_to_old(const uint8_t *text, size_t text_bytes, uint8_t *scratch, size_t scratch_bytes,
                               uint8_t *old, size_t old_bytes, uint64_t *fields, size_t field_words);

#ifdef __cplusplus
}
#endif

#endif /* JAMBCOPPER_H */
