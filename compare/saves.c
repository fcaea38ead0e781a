/* SPDX-License-Identifier: Apache-2.0 AND BSD-3-Clause */
/*
 * Save records by the static library: reads the lines of states.awk and prints each with what the library does, which bin/saves
 * holds against a model. Behind a line and a tab stands the number and, where it is 0,
 *   old      a tab and the text
 *   text     a tab, the six fields, a tab and the old bytes
 *   save     a tab and the text
 *   restore  a tab, the record's words, a tab and the bitmap's blocks
 * Each is done again with less room, more room and none at all, and a text that was taken is written again from what was read.
 * Where one of these is not as it must be, or a refused call has changed something, that is put behind, too, by name.
 *
 * Slices end where memory ends, so that a byte touched behind one stops the program.
 */
#define _GNU_SOURCE
#include "jambcopper.h"

#include <inttypes.h>
#include <stdio.h>
#include <stdlib.h>
#include <string.h>
#include <sys/mman.h>

#define ROOM (1 << 21) /* longer than every slice, and a multiple of every processor's page */
#define JUNK 0xa5

static _Noreturn void die(const char *why)
{
    fprintf(stderr, "saves: %s\n", why);
    exit(2);
}

/* ---- slices */

enum { WORDS, BITMAP, TEXT, OLD, SCRATCH, LENGTH, FIELDS, SLICES };

/* Room for a slice of so many bytes, whose end is the end of memory. */
static void *room(int which, size_t bytes)
{
    static uint8_t *end[SLICES];
    if (end[which] == NULL) {
        uint8_t *at = mmap(NULL, 2 * ROOM, PROT_READ | PROT_WRITE, MAP_PRIVATE | MAP_ANONYMOUS, -1, 0);
        if (at == MAP_FAILED || mprotect(at + ROOM, ROOM, PROT_NONE) != 0)
            die("no memory");
        end[which] = at + ROOM;
    }
    if (bytes > ROOM)
        die("a slice that is too long");
    return end[which] - bytes;
}

static void *lent(int which, const void *bytes, size_t count)
{
    return memcpy(room(which, count), bytes, count);
}

static void *junk(int which, size_t bytes)
{
    return memset(room(which, bytes), JUNK, bytes);
}

static bool is_junk(const void *at, size_t bytes)
{
    const uint8_t *byte = at;
    return bytes == 0 || (*byte == JUNK && memcmp(byte, byte + 1, bytes - 1) == 0);
}

/* ---- what is read and printed */

/* What is not as it must be, put behind the line. */
static void note(bool holds, const char *what)
{
    if (!holds)
        printf("\t%s", what);
}

static int digit(char c)
{
    return c >= '0' && c <= '9' ? c - '0' : c >= 'a' && c <= 'f' ? c - 'a' + 10 : -1;
}

/* A text as the lines have it: / is a newline, and % goes before two hexadecimal digits. */
static size_t text_in(const char *line, uint8_t *text)
{
    size_t n = 0;
    for (; *line != 0; line++) {
        if (n == ROOM)
            die("a text that is too long");
        if (*line != '%') {
            text[n++] = *line == '/' ? '\n' : (uint8_t)*line;
            continue;
        }
        if (digit(line[1]) < 0 || digit(line[2]) < 0)
            die("no hexadecimal digits");
        text[n++] = (uint8_t)(16 * digit(line[1]) + digit(line[2]));
        line += 2;
    }
    return n;
}

static void print_text(const uint8_t *text, size_t bytes)
{
    for (size_t i = 0; i < bytes; i++) {
        uint8_t c = text[i];
        if (c == '\n')
            putchar('/');
        else if ((c >= 'a' && c <= 'z') || (c >= '0' && c <= '9') || c == '=' || c == ',')
            putchar(c);
        else
            printf("%%%02x", c);
    }
}

static size_t words_in(const char *line, uint64_t *words, size_t most)
{
    size_t n = 0;
    while (*line != 0) {
        char *next;
        if (n == most)
            die("too many words");
        words[n++] = strtoull(line, &next, 10);
        if (next == line || (*next != 0 && *next != ' '))
            die("a word that is no number");
        line = *next == 0 ? next : next + 1;
    }
    return n;
}

static void print_words(const uint64_t *words, size_t count)
{
    for (size_t i = 0; i < count; i++)
        printf("%s%" PRIu64, i == 0 ? "\t" : " ", words[i]);
}

static size_t bitmap_in(const char *line, uint8_t *bitmap)
{
    size_t blocks = strlen(line);
    if (blocks % 8 != 0 || blocks / 8 > ROOM)
        die("a bitmap that is no whole bytes");
    memset(bitmap, 0, blocks / 8);
    for (size_t block = 0; block < blocks; block++)
        bitmap[block / 8] |= (uint8_t)((line[block] == '1') << block % 8);
    return blocks / 8;
}

/* ---- the calls. A text is written into room for it, then into just as much, more, and less. */

struct state {
    uint64_t words[32];
    size_t word_count;
    uint8_t bytes[ROOM]; /* the bitmap, or the old bytes */
    size_t byte_count;
};

typedef uint64_t writes(const struct state *of, uint8_t *text, size_t text_bytes, uint64_t *length, size_t length_words);

static uint64_t call_save(const struct state *of, uint8_t *text, size_t text_bytes, uint64_t *length, size_t length_words)
{
    const uint64_t *words = lent(WORDS, of->words, 8 * of->word_count);
    const uint8_t *bitmap = lent(BITMAP, of->bytes, of->byte_count);
    return jambcopper_save(words, of->word_count, bitmap, of->byte_count, text, text_bytes, length, length_words);
}

static uint64_t call_length(const struct state *of, uint8_t *text, size_t text_bytes, uint64_t *length,
                            size_t length_words)
{
    (void)text, (void)text_bytes;
    const uint64_t *words = lent(WORDS, of->words, 8 * of->word_count);
    const uint8_t *bitmap = lent(BITMAP, of->bytes, of->byte_count);
    return jambcopper_save_length(words, of->word_count, bitmap, of->byte_count, length, length_words);
}

static size_t scratch_bytes = JAMBCOPPER_SAVE_SCRATCH;

static uint64_t call_old_to_new(const struct state *of, uint8_t *text, size_t text_bytes, uint64_t *length,
                                size_t length_words)
{
    const uint64_t *fields = lent(FIELDS, of->words, 8 * of->word_count);
    const uint8_t *old = lent(OLD, of->bytes, of->byte_count);
    return jambcopper_old_to_new(fields, of->word_count, old, of->byte_count, junk(SCRATCH, scratch_bytes), scratch_bytes,
                                 text, text_bytes, length, length_words);
}

/* A call that must be refused with a number, and then has written nothing. */
static void refuses(writes *call, const struct state *of, size_t text_bytes, size_t length_words, uint64_t due,
                    const char *what)
{
    uint8_t *text = junk(TEXT, text_bytes);
    uint64_t *length = junk(LENGTH, 8 * length_words);
    uint64_t given = call(of, text, text_bytes, length, length_words);
    note(given == due && is_junk(text, text_bytes) && is_junk(length, 8 * length_words), what);
}

/* The text of a state, which is kept in `kept`; gives its length, or 0 where it is refused. */
static size_t write_text(writes *call, const struct state *of, uint8_t *kept)
{
    /* 13 bytes a block are more than a text has. */
    const size_t enough = of->byte_count > 4096 ? JAMBCOPPER_SAVE_MAX_TEXT_BYTES : 122 + 8 * 13 * of->byte_count;
    uint8_t *text = junk(TEXT, enough);
    uint64_t *length = junk(LENGTH, 16);
    uint64_t given = call(of, text, enough, length, 2);
    printf("\t%" PRIu64, given);
    note(is_junk(length + 1, 8), "a second word was written");
    if (given != JAMBCOPPER_DONE) {
        note(is_junk(text, enough) && is_junk(length, 16), "refused, and yet something changed");
        refuses(call, of, enough, 0, JAMBCOPPER_BAD_SAVE, "no room for the length");
        refuses(call, of, 0, 1, given, "another refusal without room");
        return 0;
    }
    size_t n = length[0];
    if (n > enough) {
        note(false, "longer than its room");
        return 0;
    }
    memcpy(kept, text, n);
    putchar('\t');
    print_text(kept, n);
    note(is_junk(text + n, enough - n), "the room's rest changed");
    text = junk(TEXT, n);
    length = junk(LENGTH, 8);
    given = call(of, text, n, length, 1);
    note(given == JAMBCOPPER_DONE && length[0] == n && memcmp(text, kept, n) == 0, "not in just its room");
    refuses(call, of, n - 1, 1, JAMBCOPPER_BAD_SAVE, "in a byte less");
    refuses(call, of, n, 0, JAMBCOPPER_BAD_SAVE, "without room for the length");
    return n;
}

static struct state given, other;
static uint8_t text[ROOM], again[ROOM + 32];

static void do_save(const char *words, const char *bitmap)
{
    given.word_count = words_in(words, given.words, 32);
    given.byte_count = bitmap_in(bitmap, given.bytes);
    size_t n = write_text(call_save, &given, text);
    uint64_t *length = junk(LENGTH, 16);
    uint64_t number = call_length(&given, NULL, 0, length, 2);
    note(is_junk(length + 1, 8), "a second word was written");
    note((number == 0) == (n > 0) && (number == 0 ? length[0] == n : is_junk(length, 8)), "another length");
    refuses(call_length, &given, 0, 0, JAMBCOPPER_BAD_SAVE, "no room for the length");
    if (number != JAMBCOPPER_DONE)
        refuses(call_save, &given, 0, 1, number, "another refusal of the length");
}

static void do_old(const char *fields, const char *old)
{
    given.word_count = words_in(fields, given.words, 32);
    given.byte_count = strlen(old);
    if (given.byte_count > ROOM)
        die("too many old bytes");
    for (size_t i = 0; i < given.byte_count; i++)
        given.bytes[i] = old[i] == 'e' ? 128 : old[i] == 'f' ? 255 : (uint8_t)(old[i] - '0');
    write_text(call_old_to_new, &given, text);
    scratch_bytes--;
    refuses(call_old_to_new, &given, 100, 1, JAMBCOPPER_SHORT_TABLE, "not 11 with a short scratch");
    refuses(call_old_to_new, &given, 100, 0, JAMBCOPPER_BAD_SAVE, "not 18 without room for the length");
    scratch_bytes++;
    given.word_count--;
    refuses(call_old_to_new, &given, 100, 1, JAMBCOPPER_BAD_SAVE, "not 18 with a field too few");
    given.word_count++;
}

/* One call that moves a text into the old form, with so much room; gives whether it is refused so and has changed nothing. */
static bool refused(size_t text_bytes, size_t scratch, size_t old_bytes, size_t field_words, uint64_t due)
{
    uint8_t *old = junk(OLD, old_bytes), *lent_scratch = junk(SCRATCH, scratch);
    uint64_t *fields = junk(FIELDS, 8 * field_words);
    uint64_t number = jambcopper_new_to_old(lent(TEXT, text, text_bytes), text_bytes, lent_scratch, scratch, old, old_bytes,
                                            fields, field_words);
    return number == due && is_junk(old, old_bytes) && is_junk(fields, 8 * field_words);
}

static void do_text(const char *line)
{
    const size_t most = 2 * JAMBCOPPER_SAVE_MAX_OLD_BYTES + 3, count = JAMBCOPPER_SAVE_FIELDS;
    size_t n = text_in(line, text);
    uint8_t *old = junk(OLD, most), *scratch = junk(SCRATCH, JAMBCOPPER_SAVE_SCRATCH + 3);
    uint64_t *fields = junk(FIELDS, 8 * (count + 1));
    uint64_t number = jambcopper_new_to_old(lent(TEXT, text, n), n, scratch, JAMBCOPPER_SAVE_SCRATCH + 3, old, most, fields,
                                            count + 1);
    printf("\t%" PRIu64, number);
    note(is_junk(scratch + JAMBCOPPER_SAVE_SCRATCH, 3), "the scratch's rest changed");
    note(is_junk(fields + count, 8), "a seventh word was written");
    note(refused(n, JAMBCOPPER_SAVE_SCRATCH - 1, most, count, JAMBCOPPER_SHORT_TABLE), "not 11 with a short scratch");
    note(refused(n, JAMBCOPPER_SAVE_SCRATCH, 0, count, number == 0 ? JAMBCOPPER_BAD_SAVE : number), "otherwise without room");
    note(refused(n, 0, most, count - 1, JAMBCOPPER_BAD_SAVE), "not 18 without room for the fields");
    old = room(OLD, most), fields = room(FIELDS, 8 * (count + 1));
    if (number != JAMBCOPPER_DONE) {
        note(refused(n, JAMBCOPPER_SAVE_SCRATCH, most, count, number), "refused, and yet something changed");
        return;
    }
    jambcopper_new_to_old(lent(TEXT, text, n), n, junk(SCRATCH, JAMBCOPPER_SAVE_SCRATCH), JAMBCOPPER_SAVE_SCRATCH,
                          junk(OLD, most), most, fields, count);
    memcpy(other.words, fields, 8 * count);
    other.word_count = count;
    print_words(other.words, count);
    uint64_t block = other.words[JAMBCOPPER_SAVE_BLOCK_SIZE], region = other.words[JAMBCOPPER_SAVE_REGION];
    if (block == 0 || region / block > most) {
        note(false, "no region");
        return;
    }
    other.byte_count = region / block;
    memcpy(other.bytes, old, other.byte_count);
    putchar('\t');
    for (size_t i = 0; i < other.byte_count; i++)
        putchar(other.bytes[i] <= 1 ? '0' + other.bytes[i] : 'f');
    note(is_junk(old + other.byte_count, most - other.byte_count), "the rest of the old bytes changed");
    note(refused(n, JAMBCOPPER_SAVE_SCRATCH, other.byte_count - 1, count, JAMBCOPPER_BAD_SAVE), "in a byte less");
    old = junk(OLD, other.byte_count);
    number = jambcopper_new_to_old(lent(TEXT, text, n), n, junk(SCRATCH, JAMBCOPPER_SAVE_SCRATCH), JAMBCOPPER_SAVE_SCRATCH,
                                   old, other.byte_count, junk(FIELDS, 8 * count), count);
    note(number == 0 && memcmp(old, other.bytes, other.byte_count) == 0, "otherwise in just its room");
    /* "One state has one text": what was read is written so. */
    uint8_t *written = junk(TEXT, n);
    uint64_t *length = junk(LENGTH, 8);
    number = call_old_to_new(&other, written, n, length, 1);
    note(number == 0 && length[0] == n && memcmp(written, text, n) == 0, "written otherwise");
}

static void do_restore(const char *words, const char *bitmap, const char *line)
{
    given.word_count = words_in(words, given.words, 32);
    given.byte_count = bitmap_in(bitmap, given.bytes);
    size_t n = text_in(line, text);
    uint64_t *record = lent(WORDS, given.words, 8 * given.word_count);
    uint8_t *bits = lent(BITMAP, given.bytes, given.byte_count);
    const uint8_t *from = lent(TEXT, text, n);
    uint64_t number = jambcopper_restore(record, given.word_count, bits, given.byte_count, from, n);
    printf("\t%" PRIu64, number);
    if (number != JAMBCOPPER_DONE) {
        note(memcmp(record, given.words, 8 * given.word_count) == 0 && memcmp(bits, given.bytes, given.byte_count) == 0,
             "refused, and yet something changed");
        return;
    }
    print_words(record, given.word_count);
    putchar('\t');
    for (size_t block = 0; block < 8 * given.byte_count; block++)
        putchar(bits[block / 8] >> block % 8 & 1 ? '1' : '0');
    /* It is saved as the text that was laid on it, but for its own usable size. */
    const char *start = (const char *)text, *usable = memmem(text, n, "usable=", 7);
    const char *behind = usable == NULL ? NULL : memchr(usable, '\n', (size_t)(start + n - usable));
    if (behind == NULL) {
        note(false, "taken without a usable size");
        return;
    }
    size_t before = (size_t)(usable - start), rest = (size_t)(start + n - behind);
    memcpy(again, text, before);
    size_t due = before + (size_t)sprintf((char *)again + before, "usable=%" PRIu64, record[JAMBCOPPER_RECORD_USABLE_SIZE]);
    memcpy(again + due, behind, rest);
    due += rest;
    uint64_t *length = junk(LENGTH, 8);
    uint8_t *saved = junk(TEXT, due);
    number = jambcopper_save(record, given.word_count, bits, given.byte_count, saved, due, length, 1);
    note(number == 0 && length[0] == due && memcmp(saved, again, due) == 0, "saved otherwise");
}

int main(void)
{
    char *line = NULL;
    size_t capacity = 0;
    ssize_t length;
    while ((length = getline(&line, &capacity, stdin)) > 0) {
        if (line[length - 1] != '\n')
            die("the last line is not whole");
        line[length - 1] = 0;
        fputs(line, stdout);
        char *rest = line, *part[4] = { NULL };
        for (size_t i = 0; i < 4; i++)
            part[i] = strsep(&rest, "\t");
        if (strcmp(part[0], "text") == 0 && part[1] != NULL)
            do_text(part[1]);
        else if (strcmp(part[0], "old") == 0 && part[2] != NULL)
            do_old(part[1], part[2]);
        else if (strcmp(part[0], "save") == 0 && part[2] != NULL)
            do_save(part[1], part[2]);
        else if (strcmp(part[0], "restore") == 0 && part[3] != NULL)
            do_restore(part[1], part[2], part[3]);
        else
            die("a line that is none of these");
        putchar('\n');
    }
    free(line);
    return ferror(stdin) || fflush(stdout) != 0 ? 2 : 0;
}
