/* The loop of SELECT K, COUNT(*), SUM(X) FROM T GROUP BY K in C, which .ci/measure.py builds by clang -O2 beside the emitted one: a table of 1,024
   slots with chains, the slot of a key by the same hash, entries of one key, a count and a sum of 128 bits.

       groups FILE ROUNDS

   FILE has K and X of each row, two signed numbers of 32 bits in little endian. Each round makes the groups anew. The last line says how many
   there are, the count and the sum of all of them, and the seconds of one round. */
#include <stdint.h>
#include <stdio.h>
#include <stdlib.h>
#include <time.h>

enum { SLOTS = 1024 };

struct row {
    int32_t k, x;
};

struct group {
    struct group *next;
    int64_t key;
    uint64_t count;
    __int128 sum;
};

static uint64_t folded(uint64_t hash, uint64_t octet) { return (hash ^ octet) * UINT64_C(0x100000001B3); }

/* An octet 0 for a value that isn't null, and the 8 octets of the value. */
static uint64_t slot_of(int64_t key) {
    uint64_t hash = folded(UINT64_C(0xCBF29CE484222325), 0);
    for (int octet = 0; octet < 8; octet++) hash = folded(hash, (uint64_t)key >> (8 * octet) & 0xFF);
    return hash * UINT64_C(0x9E3779B97F4A7C15) >> 54;
}

/* Takes a row; returns the first free entry behind it. */
static struct group *take(struct group **directory, struct group *free_entry, const struct row *row) {
    struct group **slot = &directory[slot_of(row->k)];
    struct group *group = *slot;
    while (group && group->key != row->k) group = group->next;
    if (!group) {
        group = free_entry++;
        *group = (struct group){*slot, row->k, 0, 0};
        *slot = group;
    }
    group->count++;
    group->sum += row->x;
    return free_entry;
}

int main(int argc, char **argv) {
    if (argc != 3) return 2;
    FILE *file = fopen(argv[1], "rb");
    if (!file) return 6;
    fseek(file, 0, SEEK_END);
    size_t count = (size_t)ftell(file) / sizeof(struct row);
    rewind(file);
    struct row *rows = malloc(count * sizeof *rows + 1);
    struct group *entries = malloc(count * sizeof *entries + 1);
    if (!rows || !entries || fread(rows, sizeof *rows, count, file) != count) return 9;
    long rounds = atol(argv[2]);
    struct group *end = entries;
    clock_t begun = clock();
    for (long round = 0; round < rounds; round++) {
        struct group *directory[SLOTS] = {0};
        end = entries;
        for (size_t at = 0; at < count; at++) end = take(directory, end, &rows[at]);
    }
    double seconds = (double)(clock() - begun) / CLOCKS_PER_SEC / (double)(rounds > 0 ? rounds : 1);
    uint64_t all = 0;
    __int128 sum = 0;
    for (struct group *group = entries; group < end; group++) all += group->count, sum += group->sum;
    printf("%zu groups, %llu rows, sum %lld, %.3f s\n", (size_t)(end - entries), (unsigned long long)all, (long long)sum, seconds);
    return 0;
}
