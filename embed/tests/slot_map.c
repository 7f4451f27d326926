/* Each call of the slot map in C: what it answers, writes and leaves, 200,000 random calls beside
 * an array, and each request for memory refused in turn. */
#include "slot_map.h"

#include <stdio.h>
#include <stdlib.h>
#include <string.h>

#define CHECK(t)                                                                                   \
    do {                                                                                           \
        if (!(t)) {                                                                                \
            printf("failed: %s, line %d\n", #t, __LINE__);                                         \
            exit(1);                                                                               \
        }                                                                                          \
    } while (0)

/* The n-th request for memory from now on is refused; none if it is 0. */
static unsigned refused_request;

struct tried {
    bool is_given;
    void *block;
};

static char nothing;

static bool is_refused(void) { return refused_request && --refused_request == 0; }

struct tried rattle_alloc(size_t size, size_t align) {
    void *block = is_refused() ? NULL : malloc(size ? size : align);
    return block ? (struct tried){true, block} : (struct tried){false, &nothing};
}

struct tried rattle_realloc(void *block, size_t kept, size_t size, size_t align) {
    (void)kept;
    void *moved = is_refused() ? NULL : realloc(block, size ? size : align);
    return moved ? (struct tried){true, moved} : (struct tried){false, &nothing};
}

void rattle_dealloc(void *block) { free(block); }

static size_t length_of(struct slot_map *map) {
    size_t length = 77;
    CHECK(slot_map_length(map, &length) == SLOT_MAP_OK);
    return length;
}

static void without_a_map(void) {
    struct slot_map map = {0};
    struct slot_map_handle handle = {3, 4}, others[2] = {{0}};
    uint64_t value = 5, values[2] = {0};
    size_t size = 7;
    uint32_t last = 9;
    CHECK(slot_map_insert(&map, 1, &handle) == SLOT_MAP_NO_MAP);
    CHECK(handle.index == 3 && handle.generation == 4);
    CHECK(slot_map_get(&map, handle, &value) == SLOT_MAP_NO_MAP && value == 5);
    CHECK(slot_map_contains(&map, handle) == SLOT_MAP_NO_MAP);
    CHECK(slot_map_set(&map, handle, 1) == SLOT_MAP_NO_MAP);
    CHECK(slot_map_remove(&map, handle, &value) == SLOT_MAP_NO_MAP && value == 5);
    CHECK(slot_map_length(&map, &size) == SLOT_MAP_NO_MAP && size == 7);
    CHECK(slot_map_capacity(&map, &size) == SLOT_MAP_NO_MAP && size == 7);
    CHECK(slot_map_reserve(&map, 4) == SLOT_MAP_NO_MAP);
    CHECK(slot_map_clear(&map) == SLOT_MAP_NO_MAP);
    CHECK(slot_map_compress(&map, others, 2, others + 1, 1, &size) == SLOT_MAP_NO_MAP);
    CHECK(slot_map_read(&map, &last, others, 2, values, 2, &size) == SLOT_MAP_NO_MAP);
    CHECK(size == 7 && last == 9);
    slot_map_free(&map);
    CHECK(map.at == NULL && !map.is_made);
}

static void handles(void) {
    struct slot_map map = {0};
    struct slot_map_handle a, b, c, zeros = {0, 0};
    uint64_t value = 5;
    CHECK(slot_map_new(&map) == SLOT_MAP_OK && slot_map_new(&map) == SLOT_MAP_MADE);
    CHECK(slot_map_insert(&map, 10, &a) == SLOT_MAP_OK);
    CHECK(slot_map_insert(&map, 20, &b) == SLOT_MAP_OK);
    CHECK(slot_map_new(&map) == SLOT_MAP_MADE && length_of(&map) == 2);
    CHECK(slot_map_get(&map, a, &value) == SLOT_MAP_OK && value == 10);
    CHECK(slot_map_get(&map, b, &value) == SLOT_MAP_OK && value == 20);
    struct slot_map_handle made_up[] = {
        zeros, {a.index, 0}, {0, a.generation}, {a.index, a.generation + 1}, {4000000000u, 2}};
    for (size_t k = 0; k < sizeof made_up / sizeof made_up[0]; k++) {
        CHECK(slot_map_get(&map, made_up[k], &value) == SLOT_MAP_NOT_FOUND && value == 20);
        CHECK(slot_map_contains(&map, made_up[k]) == SLOT_MAP_NOT_FOUND);
        CHECK(slot_map_set(&map, made_up[k], 1) == SLOT_MAP_NOT_FOUND);
        CHECK(slot_map_remove(&map, made_up[k], &value) == SLOT_MAP_NOT_FOUND && value == 20);
    }
    CHECK(slot_map_set(&map, a, 11) == SLOT_MAP_OK);
    CHECK(slot_map_get(&map, a, &value) == SLOT_MAP_OK && value == 11);
    CHECK(slot_map_remove(&map, a, &value) == SLOT_MAP_OK && value == 11 && length_of(&map) == 1);
    CHECK(slot_map_contains(&map, a) == SLOT_MAP_NOT_FOUND);
    CHECK(slot_map_insert(&map, 30, &c) == SLOT_MAP_OK);
    CHECK(c.index == a.index && c.generation != a.generation);
    CHECK(slot_map_contains(&map, a) == SLOT_MAP_NOT_FOUND);
    CHECK(slot_map_contains(&map, c) == SLOT_MAP_OK && slot_map_contains(&map, b) == SLOT_MAP_OK);
    CHECK(slot_map_clear(&map) == SLOT_MAP_OK && length_of(&map) == 0);
    CHECK(slot_map_contains(&map, b) == SLOT_MAP_NOT_FOUND);
    slot_map_free(&map);
    slot_map_free(&map);
}

static void rooms(void) {
    struct slot_map map = {0};
    struct slot_map_handle handle;
    size_t capacity;
    CHECK(slot_map_new(&map) == SLOT_MAP_OK);
    CHECK(slot_map_capacity(&map, &capacity) == SLOT_MAP_OK && capacity == 0);
    CHECK(slot_map_reserve(&map, 10) == SLOT_MAP_OK);
    CHECK(slot_map_capacity(&map, &capacity) == SLOT_MAP_OK && capacity == 10);
    CHECK(slot_map_reserve(&map, 3) == SLOT_MAP_OK);
    CHECK(slot_map_reserve(&map, 4294967296u) == SLOT_MAP_FULL);
    CHECK(slot_map_capacity(&map, &capacity) == SLOT_MAP_OK && capacity == 10);
    for (uint64_t value = 0; value < 11; value++)
        CHECK(slot_map_insert(&map, value, &handle) == SLOT_MAP_OK);
    CHECK(slot_map_capacity(&map, &capacity) == SLOT_MAP_OK && capacity == 20);
    slot_map_free(&map);
}

static void many_at_a_time(void) {
    enum { COUNT = 100 };
    struct slot_map map = {0};
    struct slot_map_handle given[COUNT], read[8], fresh[COUNT], old[COUNT];
    uint64_t values[8], value;
    size_t written, seen = 0;
    uint32_t last = 0;
    CHECK(slot_map_new(&map) == SLOT_MAP_OK);
    for (size_t k = 0; k < COUNT; k++)
        CHECK(slot_map_insert(&map, k, &given[k]) == SLOT_MAP_OK);
    for (size_t k = 0; k < COUNT; k += 3)
        CHECK(slot_map_remove(&map, given[k], &value) == SLOT_MAP_OK && value == k);
    size_t length = length_of(&map);
    do {
        values[5] = 1234567;
        CHECK(slot_map_read(&map, &last, read, 8, values, 5, &written) == SLOT_MAP_OK);
        CHECK(written <= 5 && values[5] == 1234567);
        for (size_t k = 0; k < written; k++, seen++) {
            CHECK(slot_map_get(&map, read[k], &value) == SLOT_MAP_OK && value == values[k]);
            CHECK(memcmp(&given[value], &read[k], sizeof read[k]) == 0);
            CHECK(k == 0 || read[k - 1].index < read[k].index);
        }
    } while (written != 0);
    CHECK(seen == length);
    CHECK(slot_map_compress(&map, old, COUNT, fresh, length - 1, &written) == SLOT_MAP_SHORT);
    CHECK(slot_map_compress(&map, old, COUNT, fresh, COUNT, &written) == SLOT_MAP_OK);
    CHECK(written == length && length_of(&map) == length);
    for (size_t k = 0; k < written; k++) {
        CHECK(fresh[k].index == k + 1);
        CHECK(slot_map_contains(&map, old[k]) == SLOT_MAP_NOT_FOUND);
        CHECK(slot_map_get(&map, fresh[k], &value) == SLOT_MAP_OK);
        CHECK(memcmp(&given[value], &old[k], sizeof old[k]) == 0);
    }
    slot_map_free(&map);
}

static void random_calls(void) {
    enum { STEPS = 200000 };
    static struct slot_map_handle given[STEPS];
    static uint64_t values[STEPS];
    static bool lives[STEPS];
    struct slot_map map = {0};
    size_t count = 0, live = 0;
    srand(1);
    CHECK(slot_map_new(&map) == SLOT_MAP_OK);
    for (int step = 0; step < STEPS; step++) {
        int kind = rand() % 4;
        size_t k = count ? (size_t)rand() % count : 0;
        uint64_t value = 77;
        if (count == 0 || kind <= 1) {
            values[count] = (uint64_t)rand() << 32 | (uint64_t)rand();
            CHECK(slot_map_insert(&map, values[count], &given[count]) == SLOT_MAP_OK);
            lives[count++] = true;
            live++;
        } else if (kind == 2) {
            uint8_t status = lives[k] ? SLOT_MAP_OK : SLOT_MAP_NOT_FOUND;
            CHECK(slot_map_remove(&map, given[k], &value) == status);
            CHECK(value == (lives[k] ? values[k] : 77));
            live -= lives[k];
            lives[k] = false;
        } else {
            uint8_t status = lives[k] ? SLOT_MAP_OK : SLOT_MAP_NOT_FOUND;
            CHECK(slot_map_set(&map, given[k], (uint64_t)step) == status);
            if (lives[k])
                values[k] = (uint64_t)step;
        }
        CHECK(length_of(&map) == live);
    }
    for (size_t k = 0; k < count; k++) {
        uint64_t value = 77;
        uint8_t status = lives[k] ? SLOT_MAP_OK : SLOT_MAP_NOT_FOUND;
        CHECK(slot_map_get(&map, given[k], &value) == status);
        CHECK(value == (lives[k] ? values[k] : 77));
    }
    slot_map_free(&map);
}

/* Ten insertions with the n-th request refused: the map is as it was, and goes on. */
static void refused_memory(void) {
    bool was_refused = true;
    for (unsigned n = 1; was_refused; n++) {
        struct slot_map map = {0};
        struct slot_map_handle given[10];
        uint64_t value;
        was_refused = false;
        refused_request = n;
        if (slot_map_new(&map) == SLOT_MAP_NO_MEMORY) {
            was_refused = true;
            CHECK(map.at == NULL && !map.is_made && slot_map_new(&map) == SLOT_MAP_OK);
        }
        for (size_t k = 0; k < 10; k++) {
            uint8_t status = slot_map_insert(&map, k, &given[k]);
            if (status == SLOT_MAP_NO_MEMORY) {
                was_refused = true;
                CHECK(length_of(&map) == k);
                status = slot_map_insert(&map, k, &given[k]);
            }
            CHECK(status == SLOT_MAP_OK);
        }
        for (size_t k = 0; k < 10; k++)
            CHECK(slot_map_get(&map, given[k], &value) == SLOT_MAP_OK && value == k);
        refused_request = was_refused ? 1 : 0;
        if (was_refused)
            CHECK(slot_map_reserve(&map, 1000) == SLOT_MAP_NO_MEMORY && length_of(&map) == 10);
        slot_map_free(&map);
    }
    refused_request = 0;
}

int main(void) {
    without_a_map();
    handles();
    rooms();
    many_at_a_time();
    random_calls();
    refused_memory();
    puts("slot_map: all as it should be");
    return 0;
}
