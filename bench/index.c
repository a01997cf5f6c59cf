/* A table of networks by prefix and first address, as one writes it in C: open addressing, twice the room, the first line of
   each network. Prints how many microseconds it takes to fill it with 200,000 lines, and to answer 500,000 questions, each by
   up to 35 look-ups, how many are answered by a line, and the bytes of the table.

     index_c SHAPE        (bench/index says which shapes there are)
*/

#include <stdint.h>
#include <stdio.h>
#include <stdlib.h>
#include <string.h>
#include <time.h>

enum { LINES = 200000, QUESTIONS = 500000, HOST = 40, EVERYBODY = 41 };

#define NOTHING UINT64_MAX

struct line {
    uint8_t prefix;
    uint32_t first;
};

struct table {
    uint64_t *keys;
    uint32_t *lines;
    uint64_t last;
    int shift;
};

static uint64_t next(uint64_t seed)
{
    seed ^= seed << 13;
    seed ^= seed >> 7;
    return seed ^ seed << 17;
}

static uint32_t first_of(uint32_t address, int prefix)
{
    return prefix == 0 ? 0 : address & UINT32_MAX << (32 - prefix);
}

static void make(const char *shape, struct line *lines, uint32_t *questions)
{
    int in_order = strcmp(shape, "random") != 0 && strcmp(shape, "mixed") != 0;
    uint64_t seed = 88172645463325252u;
    for (uint32_t k = 1; k <= LINES; k++) {
        seed = next(seed);
        uint8_t prefix = strcmp(shape, "mixed") == 0 ? 8 + seed % 25 : 32;
        lines[k - 1].prefix = prefix;
        lines[k - 1].first = first_of(in_order ? 2 * k : seed >> 32, prefix);
    }
    seed = 88172645463325252u;
    for (uint32_t k = 0; k < QUESTIONS; k++) {
        seed = next(seed);
        questions[k] = in_order ? k : seed >> 32;
    }
}

static uint64_t key(int kind, uint32_t first)
{
    return (uint64_t)kind << 32 | first;
}

static uint64_t place_of(const struct table *table, uint64_t key)
{
    return key * 0x9E3779B97F4A7C15u >> table->shift;
}

static void fill(struct table *table, const struct line *lines)
{
    uint64_t room = 1;
    table->shift = 64;
    while (room < 2 * LINES) {
        room *= 2;
        table->shift--;
    }
    table->last = room - 1;
    table->keys = malloc(room * sizeof *table->keys);
    table->lines = malloc(room * sizeof *table->lines);
    if (!table->keys || !table->lines)
        exit(1);
    memset(table->keys, 0xff, room * sizeof *table->keys);
    for (uint32_t line = 0; line < LINES; line++) {
        uint64_t own = key(lines[line].prefix, lines[line].first);
        uint64_t place = place_of(table, own);
        while (table->keys[place] != NOTHING && table->keys[place] != own)
            place = (place + 1) & table->last;
        if (table->keys[place] == NOTHING) {
            table->keys[place] = own;
            table->lines[place] = line + 1;
        }
    }
}

/* The first line of a key, or 0. */
static inline uint32_t look_up(const struct table *table, uint64_t key)
{
    for (uint64_t place = place_of(table, key); table->keys[place] != NOTHING; place = (place + 1) & table->last)
        if (table->keys[place] == key)
            return table->lines[place];
    return 0;
}

static uint32_t selected(const struct table *table, uint32_t address)
{
    uint32_t line = look_up(table, key(HOST, address));
    for (int prefix = 32; prefix >= 0 && !line; prefix--)
        line = look_up(table, key(prefix, first_of(address, prefix)));
    return line ? line : look_up(table, key(EVERYBODY, 0));
}

static uint32_t ask(const struct table *table, const uint32_t *questions)
{
    uint32_t answered = 0;
    for (int k = 0; k < QUESTIONS; k++)
        answered += selected(table, questions[k]) != 0;
    return answered;
}

static long long now(void)
{
    struct timespec time;
    clock_gettime(CLOCK_MONOTONIC, &time);
    return time.tv_sec * 1000000LL + time.tv_nsec / 1000;
}

int main(int argc, char **argv)
{
    struct line *lines = malloc(LINES * sizeof *lines);
    uint32_t *questions = malloc(QUESTIONS * sizeof *questions);
    struct table table;
    if (argc != 2 || !lines || !questions)
        return 1;
    make(argv[1], lines, questions);
    long long start = now();
    fill(&table, lines);
    long long filled = now();
    uint32_t answered = ask(&table, questions);
    long long asked = now();
    printf("%lld %lld %u %llu\n", filled - start, asked - filled, answered,
           (unsigned long long)(table.last + 1) * (sizeof *table.keys + sizeof *table.lines));
    return 0;
}
