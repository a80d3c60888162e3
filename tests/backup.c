/*
 * Tests the library of backups across its C boundary: which numbers and which memory each call writes and leaves, windows of every length around that of a
 * block, every refusal, every changed byte, blocks judged by themselves against reading, null pointers of length 0, and two threads at once. Lent memory
 * ends where a page begins that can't be touched, or begins behind one, so that a byte read or written beside it ends the program; and a window of 2^32
 * bytes. Prints how many checks were made; the status is 1 at the first that fails, which is told.
 */
#define _DEFAULT_SOURCE /* pages and threads, which C99 itself hasn't */
#include <pthread.h>
#include <stdint.h>
#include <stdio.h>
#include <stdlib.h>
#include <string.h>
#include <sys/mman.h>
#include <unistd.h>

#include "planksling_backup.h"

#define BLOCK PLANKSLING_BACKUP_BLOCK
#define PAYLOAD PLANKSLING_BACKUP_PAYLOAD

/* --- checks --- */

static unsigned long checks;
static const char *about = ""; /* what is being tried, told where a check fails */

static void check_at(int line, int good, const char *what)
{
    checks++;
    if (!good) {
        printf("backup.c:%d: %s: not so: %s\n", line, about, what);
        exit(1);
    }
}

#define CHECK(condition) check_at(__LINE__, (condition) != 0, #condition)

/* --- lent memory --- */

struct bytes {
    uint8_t *at;
    size_t length;
};

static size_t page_size(void) { return (size_t)sysconf(_SC_PAGESIZE); }

static size_t whole_pages(size_t length) { return (length + page_size() - 1) / page_size() * page_size(); }

/* So many bytes between two pages that can't be touched, all of them `fill`: at the end, or at the front where `is_front`; null for none. */
static struct bytes lend(size_t length, int fill, int is_front)
{
    size_t page = page_size(), pages = whole_pages(length);
    struct bytes lent = {NULL, 0};
    uint8_t *memory;

    if (length == 0)
        return lent;
    memory = (uint8_t *)mmap(NULL, pages + 2 * page, PROT_READ | PROT_WRITE, MAP_PRIVATE | MAP_ANONYMOUS, -1, 0);
    if (memory == MAP_FAILED || mprotect(memory, page, PROT_NONE) != 0 || mprotect(memory + page + pages, page, PROT_NONE) != 0) {
        perror("backup.c: memory");
        exit(1);
    }
    lent.at = memory + page + (is_front ? 0 : pages - length);
    lent.length = length;
    memset(lent.at, fill, length);
    return lent;
}

static void give_back(struct bytes lent)
{
    size_t page = page_size(), pages = whole_pages(lent.length);
    uintptr_t first = (uintptr_t)lent.at / page * page;

    if (lent.length > 0)
        munmap((uint8_t *)first - page, pages + 2 * page);
}

static struct bytes copy_of(struct bytes memory)
{
    struct bytes copy = lend(memory.length, 0, 0);

    if (memory.length > 0)
        memcpy(copy.at, memory.at, memory.length);
    return copy;
}

static int is_same(const void *one, const void *other, size_t length) { return length == 0 || memcmp(one, other, length) == 0; }

/* A window whose bytes differ from their neighbours. */
static struct bytes new_window(size_t length, int is_front)
{
    struct bytes window = lend(length, 0, is_front);
    size_t i;

    for (i = 0; i < length; i++)
        window.at[i] = (uint8_t)(i * 31 + i / 256);
    return window;
}

/* --- what a call tells --- */

/* No call here hands out this number, so a number that still is it was not written. */
#define MARK 0xA5A5A5A5u

struct told {
    size_t refusal, place, size;
    uint64_t space;
};

static const struct told nothing = {MARK, MARK, MARK, MARK};

static int is_told_as(struct told told, size_t refusal, size_t place) { return told.refusal == refusal && told.place == place; }

/* Storing. Behind the blocks, and after a refusal everywhere, the output is as it was. */
static struct told store(uint64_t space, struct bytes window, struct bytes output)
{
    struct told told = nothing;
    struct bytes before = copy_of(output), read = copy_of(window);
    size_t written;

    told.refusal = planksling_backup_store(space, window.at, window.length, output.at, output.length, &told.size, &told.place);
    CHECK(is_same(window.at, read.at, window.length));
    if (told.refusal == 0)
        CHECK(told.size == PLANKSLING_BACKUP_ROOM(window.length) && told.size <= output.length && told.place == MARK);
    else
        CHECK(told.size == MARK && told.place == 0);
    written = told.refusal == 0 ? told.size : 0;
    CHECK(written == output.length || is_same(output.at + written, before.at + written, output.length - written));
    give_back(before);
    give_back(read);
    return told;
}

/* Reading, and the same of the output. */
static struct told restore(struct bytes backup, struct bytes output)
{
    struct told told = nothing;
    struct bytes before = copy_of(output), read = copy_of(backup);
    size_t written;

    told.refusal = planksling_backup_read(backup.at, backup.length, output.at, output.length, &told.size, &told.space, &told.place);
    CHECK(is_same(backup.at, read.at, backup.length));
    if (told.refusal == 0)
        CHECK(told.size != MARK && told.size <= output.length && told.space <= 255 && told.place == MARK);
    else
        CHECK(told.size == MARK && told.space == MARK && told.place != MARK);
    written = told.refusal == 0 ? told.size : 0;
    CHECK(written == output.length || is_same(output.at + written, before.at + written, output.length - written));
    give_back(before);
    give_back(read);
    return told;
}

/* Is reading refused so, whatever the output, and does judging the blocks one by one tell the same? */
static void refuses(struct bytes backup, size_t refusal, size_t place)
{
    static const size_t rooms[] = {0, 1, 4000};
    size_t i, first = 0, number = 0, blocks = backup.length / BLOCK;

    for (i = 0; i < sizeof rooms / sizeof *rooms; i++) {
        struct bytes output = lend(rooms[i], 0xEE, 0);

        CHECK(is_told_as(restore(backup, output), refusal, place));
        give_back(output);
    }
    if (refusal == PLANKSLING_BACKUP_NOT_WHOLE)
        return;
    for (; first < blocks && number == 0; first++)
        number = planksling_backup_judge(backup.at + first * BLOCK, BLOCK, first, blocks - first - 1, backup.at[6]);
    CHECK(number == refusal && first - 1 == place);
}

/* The backup of a window, in memory of its own. */
static struct bytes backup_of(uint64_t space, struct bytes window)
{
    struct bytes backup = lend(PLANKSLING_BACKUP_ROOM(window.length), 0xEE, 0);

    CHECK(store(space, window, backup).refusal == 0);
    return backup;
}

/* The check that fits a block. */
static void mend(uint8_t *block)
{
    uint32_t sum = 0;
    size_t i;

    for (i = 0; i < 510; i += 2)
        sum += (uint32_t)(block[i] * 256 + block[i + 1]);
    sum %= 65535;
    block[510] = (uint8_t)(sum / 256);
    block[511] = (uint8_t)(sum % 256);
}

/* --- storing and reading back --- */

/* The fields of each block, made once more. */
static void has_layout(struct bytes backup, struct bytes window, uint8_t space)
{
    size_t i, last = backup.length / BLOCK - 1;

    CHECK(backup.length == PLANKSLING_BACKUP_ROOM(window.length) && backup.length % BLOCK == 0);
    for (i = 0; i <= last; i++) {
        size_t used = i < last ? PAYLOAD : window.length - last * PAYLOAD;
        uint8_t made[BLOCK] = {0};

        made[0] = (uint8_t)(i >> 24), made[1] = (uint8_t)(i >> 16), made[2] = (uint8_t)(i >> 8), made[3] = (uint8_t)i;
        made[4] = (uint8_t)(used >> 8), made[5] = (uint8_t)used, made[6] = space, made[7] = i == last;
        memcpy(made + 8, window.at + i * PAYLOAD, used);
        mend(made);
        CHECK(is_same(backup.at + i * BLOCK, made, BLOCK));
        CHECK(planksling_backup_judge(backup.at + i * BLOCK, BLOCK, i, last - i, space) == 0);
    }
}

static void stores_and_reads_back(void)
{
    static const size_t lengths[] = {1, 2, 501, 502, 503, 1003, 1004, 1005, 1506, 100000};
    static const uint8_t spaces[] = {0, 7, 253, 255};
    size_t i, j, behind;

    about = "stored and read back";
    for (i = 0; i < sizeof lengths / sizeof *lengths; i++)
        for (j = 0; j < sizeof spaces; j++)
            for (behind = 0; behind < 3; behind++) {
                struct bytes window = new_window(lengths[i], behind % 2), output, backup;
                struct told told;

                output = lend(PLANKSLING_BACKUP_ROOM(window.length) + behind * 300, 0xEE, behind % 2);
                CHECK(store(spaces[j], window, output).refusal == 0);
                backup.at = output.at, backup.length = PLANKSLING_BACKUP_ROOM(window.length);
                has_layout(backup, window, spaces[j]);
                give_back(output);
                backup = backup_of(spaces[j], window);
                output = lend(window.length + behind * 300, 0xEE, behind % 2);
                told = restore(backup, output);
                CHECK(told.refusal == 0 && told.size == window.length && told.space == spaces[j]);
                CHECK(is_same(output.at, window.at, window.length));
                give_back(output);
                give_back(backup);
                give_back(window);
            }
}

/* Any length of a window up to three blocks, into exactly the room that it needs and into one byte less. */
static void takes_every_length(void)
{
    size_t length;

    about = "every length";
    for (length = 1; length <= 3 * PAYLOAD; length++) {
        struct bytes window = new_window(length, 0), backup = backup_of(9, window), output = lend(length, 0xEE, 0), less;

        has_layout(backup, window, 9);
        CHECK(restore(backup, output).refusal == 0 && is_same(output.at, window.at, length));
        less = lend(length - 1, 0xEE, 0);
        CHECK(is_told_as(restore(backup, less), PLANKSLING_BACKUP_NO_ROOM, 0));
        give_back(less);
        less = lend(backup.length - 1, 0xEE, 0);
        CHECK(is_told_as(store(9, window, less), PLANKSLING_BACKUP_NO_ROOM, 0));
        give_back(less);
        give_back(output);
        give_back(backup);
        give_back(window);
    }
}

/* --- refusals --- */

static void refuses_windows(void)
{
    static const uint64_t spaces[] = {256, 257, 511, UINT64_C(1) << 32, UINT64_MAX};
    struct bytes none = {NULL, 0}, window = new_window(3, 0), output = lend(1024, 0xEE, 0);
    size_t i;

    about = "40 and 41 of storing";
    CHECK(is_told_as(store(253, none, output), PLANKSLING_BACKUP_NOT_STORABLE, 0));
    CHECK(is_told_as(store(253, none, none), PLANKSLING_BACKUP_NOT_STORABLE, 0));
    for (i = 0; i < sizeof spaces / sizeof *spaces; i++) {
        CHECK(is_told_as(store(spaces[i], window, output), PLANKSLING_BACKUP_NOT_STORABLE, 0));
        CHECK(is_told_as(store(spaces[i], window, none), PLANKSLING_BACKUP_NOT_STORABLE, 0));
    }
    CHECK(is_told_as(store(253, window, none), PLANKSLING_BACKUP_NO_ROOM, 0));
    give_back(window);
    give_back(output);
}

/* A window of 2^32 bytes and of one more, which is memory that can only be read and never was written: it takes no room. */
static void takes_no_more_than_most(void)
{
    size_t most = PLANKSLING_BACKUP_MOST;
    struct bytes window = {NULL, 0}, output = lend(BLOCK, 0xEE, 0);
    void *memory = mmap(NULL, most + 1, PROT_READ, MAP_PRIVATE | MAP_ANONYMOUS | MAP_NORESERVE, -1, 0);
    size_t size = MARK, place = MARK;

    about = "2^32 bytes";
    CHECK(memory != MAP_FAILED);
    window.at = (uint8_t *)memory;
    CHECK(planksling_backup_store(253, window.at, most + 1, output.at, output.length, &size, &place) == PLANKSLING_BACKUP_NOT_STORABLE);
    CHECK(size == MARK && place == 0);
    place = MARK;
    CHECK(planksling_backup_store(253, window.at, most, output.at, output.length, &size, &place) == PLANKSLING_BACKUP_NO_ROOM);
    CHECK(size == MARK && place == 0);
    munmap(memory, most + 1);
    give_back(output);
}

static void refuses_lengths(void)
{
    struct bytes window = new_window(1004, 0), backup = backup_of(7, window);
    size_t length;

    about = "42";
    for (length = 0; length < backup.length; length++) {
        struct bytes part = {NULL, 0};

        if (length % BLOCK == 0 && length > 0)
            continue;
        part = lend(length, 0, 0);
        if (length > 0)
            memcpy(part.at, backup.at, length);
        refuses(part, PLANKSLING_BACKUP_NOT_WHOLE, 0);
        CHECK(planksling_backup_judge(part.at, length, 0, 0, 7) == PLANKSLING_BACKUP_NOT_WHOLE);
        give_back(part);
    }
    CHECK(planksling_backup_judge(backup.at, backup.length, 0, 0, 7) == PLANKSLING_BACKUP_NOT_WHOLE);
    give_back(backup);
    give_back(window);
}

/* Any other byte at any place is 43 at its block. */
static void notices_every_byte(void)
{
    struct bytes window = new_window(503, 0), backup = backup_of(253, window), output = lend(503, 0xEE, 0);
    size_t i, step, length = MARK, place = MARK;
    uint64_t space = MARK;

    about = "a changed byte";
    for (i = 0; i < backup.length; i++) {
        uint8_t old = backup.at[i];

        for (step = 1; step < 256; step++) {
            backup.at[i] = (uint8_t)(old + step);
            place = MARK;
            CHECK(planksling_backup_read(backup.at, backup.length, output.at, output.length, &length, &space, &place) == PLANKSLING_BACKUP_BAD_CHECK);
            CHECK(place == i / BLOCK && length == MARK && space == MARK);
        }
        refuses(backup, PLANKSLING_BACKUP_BAD_CHECK, i / BLOCK);
        backup.at[i] = old;
    }
    for (i = 0; i < output.length; i++)
        CHECK(output.at[i] == 0xEE);
    CHECK(restore(backup, output).refusal == 0);
    give_back(output);
    give_back(backup);
    give_back(window);
}

/* A byte changed, with the check that fits: in a backup of three blocks, the last of 10 bytes. */
static void refuses_fields(void)
{
    static const struct {
        size_t at;
        uint8_t byte;
    } changes[] = {
        {0, 1},    {3, 1},    {512, 1},  {515, 0},  {515, 2},  {1027, 1}, {518, 8},  {1030, 8},  {4, 0},    {5, 0},     {5, 245},
        {5, 247},  {4, 2},    {517, 10}, {1029, 0}, {1028, 2}, {7, 1},    {7, 255},  {519, 1},   {1031, 0}, {1031, 2},  {1031, 255},
        {1042, 1}, {1043, 9}, {1200, 1}, {1532, 1}, {1533, 255},
    };
    struct bytes window = new_window(1014, 0), good = backup_of(7, window);
    size_t i;

    about = "44";
    for (i = 0; i < sizeof changes / sizeof *changes; i++) {
        struct bytes bad = copy_of(good);
        size_t block = changes[i].at / BLOCK;

        bad.at[changes[i].at] = changes[i].byte;
        refuses(bad, PLANKSLING_BACKUP_BAD_CHECK, block);
        mend(bad.at + block * BLOCK);
        refuses(bad, PLANKSLING_BACKUP_BAD_FIELD, block);
        give_back(bad);
    }
    give_back(good);
    give_back(window);
}

/* A wrong length alone: in a backup of zeros no byte behind a shorter payload speaks. */
static void refuses_lengths_of_zeros(void)
{
    static const size_t full[] = {0, 1, 246, 501, 503, 504, 758, 65535}, last[] = {0, 503, 504, 512, 65535};
    struct bytes window = lend(1014, 0, 0), good = backup_of(7, window);
    size_t i, block;

    about = "44 for the length alone";
    for (block = 0; block < 3; block++)
        for (i = 0; i < (block < 2 ? sizeof full / sizeof *full : sizeof last / sizeof *last); i++) {
            struct bytes bad = copy_of(good);
            size_t length = block < 2 ? full[i] : last[i];

            bad.at[block * BLOCK + 4] = (uint8_t)(length >> 8), bad.at[block * BLOCK + 5] = (uint8_t)length;
            mend(bad.at + block * BLOCK);
            refuses(bad, PLANKSLING_BACKUP_BAD_FIELD, block);
            give_back(bad);
        }
    /* and in the last block any from 1 to 502 is good */
    for (i = 1; i <= PAYLOAD; i++) {
        good.at[2 * BLOCK + 4] = (uint8_t)(i >> 8), good.at[2 * BLOCK + 5] = (uint8_t)i;
        mend(good.at + 2 * BLOCK);
        CHECK(planksling_backup_judge(good.at + 2 * BLOCK, BLOCK, 2, 0, 7) == 0);
        CHECK(planksling_backup_judge(good.at + 2 * BLOCK, BLOCK, 2, 1, 7) == PLANKSLING_BACKUP_BAD_FIELD);
    }
    give_back(good);
    give_back(window);
}

/* Blocks that are good somewhere, at another place. */
static void refuses_places(void)
{
    struct bytes window = new_window(1014, 0), good = backup_of(7, window), bad = copy_of(good);
    struct bytes part = {NULL, 0};

    about = "blocks at other places";
    part.at = good.at, part.length = 2 * BLOCK;
    refuses(part, PLANKSLING_BACKUP_BAD_FIELD, 1);
    part.at = good.at + BLOCK, part.length = 2 * BLOCK;
    refuses(part, PLANKSLING_BACKUP_BAD_FIELD, 0);
    memcpy(bad.at + BLOCK, good.at + 2 * BLOCK, BLOCK);
    refuses(bad, PLANKSLING_BACKUP_BAD_FIELD, 1);
    memcpy(bad.at + 2 * BLOCK, good.at + BLOCK, BLOCK);
    refuses(bad, PLANKSLING_BACKUP_BAD_FIELD, 1);
    memset(bad.at, 0, bad.length);
    refuses(bad, PLANKSLING_BACKUP_BAD_FIELD, 0);
    memset(bad.at, 0xFF, bad.length);
    refuses(bad, PLANKSLING_BACKUP_BAD_CHECK, 0);
    /* 44 in block 0 before 43 in block 1; and the other way round */
    memcpy(bad.at, good.at, good.length);
    bad.at[3] = 1, bad.at[600] ^= 1;
    mend(bad.at);
    refuses(bad, PLANKSLING_BACKUP_BAD_FIELD, 0);
    memcpy(bad.at, good.at, good.length);
    bad.at[100] ^= 1, bad.at[515] = 0;
    mend(bad.at + BLOCK);
    refuses(bad, PLANKSLING_BACKUP_BAD_CHECK, 0);
    give_back(bad);
    give_back(good);
    give_back(window);
}

/* A sum that is a multiple of 65,535 has the check 0, and FFFF is none. */
static void takes_one_check(void)
{
    struct bytes window = lend(2, 0, 0), backup;

    about = "the check 0";
    window.at[1] = 252;
    backup = backup_of(255, window);
    CHECK(backup.at[510] == 0 && backup.at[511] == 0);
    backup.at[510] = 0xFF, backup.at[511] = 0xFF;
    refuses(backup, PLANKSLING_BACKUP_BAD_CHECK, 0);
    give_back(backup);
    give_back(window);
}

/* --- one block --- */

static void judges_blocks(void)
{
    static const size_t far[] = {2, 255, 256, 65536, (size_t)1 << 32, ((size_t)1 << 32) + 1, SIZE_MAX};
    struct bytes window = new_window(503, 0), backup = backup_of(7, window), block = lend(BLOCK, 0, 1);
    size_t i;

    about = "a block by itself";
    memcpy(block.at, backup.at + BLOCK, BLOCK);
    CHECK(planksling_backup_judge(block.at, BLOCK, 1, 0, 7) == 0);
    CHECK(planksling_backup_judge(block.at, BLOCK - 1, 1, 0, 7) == PLANKSLING_BACKUP_NOT_WHOLE);
    CHECK(planksling_backup_judge(NULL, 0, 1, 0, 7) == PLANKSLING_BACKUP_NOT_WHOLE);
    CHECK(planksling_backup_judge(block.at, BLOCK, 0, 0, 7) == PLANKSLING_BACKUP_BAD_FIELD);
    CHECK(planksling_backup_judge(block.at, BLOCK, 1, 0, 8) == PLANKSLING_BACKUP_BAD_FIELD);
    CHECK(planksling_backup_judge(block.at, BLOCK, 1, 0, 263) == PLANKSLING_BACKUP_BAD_FIELD);
    CHECK(planksling_backup_judge(block.at, BLOCK, 1, 0, UINT64_MAX) == PLANKSLING_BACKUP_BAD_FIELD);
    for (i = 0; i < sizeof far / sizeof *far; i++) {
        CHECK(planksling_backup_judge(block.at, BLOCK, far[i], 0, 7) == PLANKSLING_BACKUP_BAD_FIELD);
        CHECK(planksling_backup_judge(block.at, BLOCK, 1, far[i], 7) == PLANKSLING_BACKUP_BAD_FIELD);
    }
    /* block 0 is good before any number of others, and the block with the largest number has a place */
    memcpy(block.at, backup.at, BLOCK);
    for (i = 0; i < sizeof far / sizeof *far; i++)
        CHECK(planksling_backup_judge(block.at, BLOCK, 0, far[i], 7) == 0);
    memset(block.at, 0xFF, 4);
    mend(block.at);
    CHECK(planksling_backup_judge(block.at, BLOCK, 0xFFFFFFFFu, 1, 7) == 0);
    CHECK(planksling_backup_judge(block.at, BLOCK, 0x1FFFFFFFFu, 1, 7) == PLANKSLING_BACKUP_BAD_FIELD);
    block.at[300] ^= 0x10;
    CHECK(planksling_backup_judge(block.at, BLOCK, 0xFFFFFFFFu, 1, 7) == PLANKSLING_BACKUP_BAD_CHECK);
    give_back(block);
    give_back(backup);
    give_back(window);
}

/* --- two threads at once --- */

/* Answers whether each call tells what it should; makes no check, as threads share the count. */
static int round_is_good(size_t round)
{
    uint8_t window[1200], backup[PLANKSLING_BACKUP_ROOM(1200)], output[1200] = {0};
    size_t length = 1 + round % sizeof window, stored = MARK, size = MARK, place = MARK, at = round * 37 % BLOCK;
    uint64_t space = MARK;
    int good;

    memset(window, (int)(round % 256), sizeof window);
    good = planksling_backup_store(round % 256, window, length, backup, sizeof backup, &stored, &place) == 0;
    good &= planksling_backup_read(backup, stored, output, sizeof output, &size, &space, &place) == 0;
    good &= size == length && space == round % 256 && memcmp(window, output, length) == 0 && place == MARK;
    backup[at] ^= 1;
    good &= planksling_backup_read(backup, stored, output, sizeof output, &size, &space, &place) == PLANKSLING_BACKUP_BAD_CHECK && place == 0;
    return good;
}

/* How many of these rounds, from a first one on, were not good. */
struct rounds {
    size_t first, many, wrong;
};

static void *run_rounds(void *given)
{
    struct rounds *rounds = (struct rounds *)given;
    size_t i;

    for (i = 0; i < rounds->many; i++)
        rounds->wrong += !round_is_good(rounds->first + i);
    return NULL;
}

static void runs_at_once(void)
{
    struct rounds rounds[2] = {{0, 20000, 0}, {777, 20000, 0}};
    pthread_t threads[2];
    int i;

    about = "two threads at once";
    for (i = 0; i < 2; i++)
        CHECK(pthread_create(&threads[i], NULL, run_rounds, &rounds[i]) == 0);
    for (i = 0; i < 2; i++) {
        CHECK(pthread_join(threads[i], NULL) == 0);
        CHECK(rounds[i].wrong == 0);
    }
}

int main(void)
{
    stores_and_reads_back();
    takes_every_length();
    refuses_windows();
    takes_no_more_than_most();
    refuses_lengths();
    notices_every_byte();
    refuses_fields();
    refuses_lengths_of_zeros();
    refuses_places();
    takes_one_check();
    judges_blocks();
    runs_at_once();
    printf("backup: %lu checks passed\n", checks);
    return 0;
}
