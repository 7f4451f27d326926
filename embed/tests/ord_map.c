/* Each call of the ordered map in C: what it answers, writes and leaves, 100,000 random calls
 * beside an array, and each request for memory refused in turn. */
#include "ord_map.h"

#include <stdio.h>
#include <stdlib.h>
#include <string.h>

#define CHECK(t)                                                                                   \
    do {                                                                                           \
        if (!(t)) {                                                                                \
            printf("failed: %s, line %d\n", #t, __LINE__);                                         \
            exit(1);                                                                               \
        }                                                                                          \
    } while (0)

/* The n-th request for memory from now on is refused; none if it is 0. */
static unsigned refused_request;

struct tried {
    bool is_given;
    void *block;
};

static char nothing;

static bool is_refused(void) { return refused_request && --refused_request == 0; }

struct tried rattle_alloc(size_t size, size_t align) {
    void *block = is_refused() ? NULL : malloc(size ? size : align);
    return block ? (struct tried){true, block} : (struct tried){false, &nothing};
}

struct tried rattle_realloc(void *block, size_t kept, size_t size, size_t align) {
    (void)kept;
    void *moved = is_refused() ? NULL : realloc(block, size ? size : align);
    return moved ? (struct tried){true, moved} : (struct tried){false, &nothing};
}

void rattle_dealloc(void *block) { free(block); }

static bool are_same(struct ord_map_handle a, struct ord_map_handle b) {
    return a.index == b.index && a.generation == b.generation;
}

static size_t length_of(struct ord_map *map) {
    size_t length = 77;
    CHECK(ord_map_length(map, &length) == ORD_MAP_OK);
    return length;
}

static struct ord_map_handle found(struct ord_map *map, uint64_t key) {
    struct ord_map_handle handle;
    CHECK(ord_map_find(map, key, &handle) == ORD_MAP_OK);
    return handle;
}

static uint64_t key_of(struct ord_map *map, struct ord_map_handle handle) {
    uint64_t key, value;
    CHECK(ord_map_get(map, handle, &key, &value) == ORD_MAP_OK);
    return key;
}

static void without_a_map(void) {
    struct ord_map map = {0};
    struct ord_map_handle handle = {3, 4}, others[2] = {{0, 0}};
    uint64_t key = 5, value = 6, keys[2] = {0}, values[2] = {0};
    uint8_t side = 9;
    size_t size = 7;
    CHECK(ord_map_insert(&map, 1, 2, &handle, &value) == ORD_MAP_NO_MAP && value == 6);
    CHECK(ord_map_get_or_insert(&map, 1, 2, &handle, &value) == ORD_MAP_NO_MAP && value == 6);
    CHECK(ord_map_find(&map, 1, &handle) == ORD_MAP_NO_MAP);
    CHECK(ord_map_nearest(&map, 1, &handle, &side) == ORD_MAP_NO_MAP && side == 9);
    CHECK(ord_map_lower_bound(&map, 1, &handle) == ORD_MAP_NO_MAP);
    CHECK(ord_map_upper_bound(&map, 1, &handle) == ORD_MAP_NO_MAP);
    CHECK(ord_map_first(&map, &handle) == ORD_MAP_NO_MAP);
    CHECK(ord_map_last(&map, &handle) == ORD_MAP_NO_MAP);
    CHECK(ord_map_next(&map, others[0], &handle) == ORD_MAP_NO_MAP);
    CHECK(ord_map_previous(&map, others[0], &handle) == ORD_MAP_NO_MAP);
    CHECK(handle.index == 3 && handle.generation == 4);
    CHECK(ord_map_get(&map, handle, &key, &value) == ORD_MAP_NO_MAP && key == 5 && value == 6);
    CHECK(ord_map_set(&map, handle, 1) == ORD_MAP_NO_MAP);
    CHECK(ord_map_remove(&map, handle, &key, &value) == ORD_MAP_NO_MAP && key == 5);
    CHECK(ord_map_remove_key(&map, 1, &value) == ORD_MAP_NO_MAP && value == 6);
    CHECK(ord_map_length(&map, &size) == ORD_MAP_NO_MAP && size == 7);
    CHECK(ord_map_capacity(&map, &size) == ORD_MAP_NO_MAP && size == 7);
    CHECK(ord_map_reserve(&map, 4) == ORD_MAP_NO_MAP);
    CHECK(ord_map_clear(&map) == ORD_MAP_NO_MAP);
    CHECK(ord_map_entries(&map, &handle, others, 2, keys, 2, values, 2, &size) == ORD_MAP_NO_MAP);
    CHECK(size == 7 && handle.index == 3);
    ord_map_free(&map);
    CHECK(map.at == NULL && !map.is_made);
}

static void without_an_entry(struct ord_map *map) {
    struct ord_map_handle handle = {3, 4}, from = {0, 0}, others[2];
    uint64_t value = 6, keys[2], values[2];
    uint8_t side = 9;
    size_t written = 7;
    CHECK(length_of(map) == 0);
    CHECK(ord_map_find(map, 1, &handle) == ORD_MAP_NO_ENTRY);
    CHECK(ord_map_nearest(map, 1, &handle, &side) == ORD_MAP_NO_ENTRY && side == 9);
    CHECK(ord_map_lower_bound(map, 0, &handle) == ORD_MAP_NO_ENTRY);
    CHECK(ord_map_upper_bound(map, 0, &handle) == ORD_MAP_NO_ENTRY);
    CHECK(ord_map_first(map, &handle) == ORD_MAP_NO_ENTRY);
    CHECK(ord_map_last(map, &handle) == ORD_MAP_NO_ENTRY);
    CHECK(ord_map_remove_key(map, 1, &value) == ORD_MAP_NO_ENTRY && value == 6);
    CHECK(handle.index == 3 && handle.generation == 4);
    CHECK(ord_map_entries(map, &from, others, 2, keys, 2, values, 2, &written) == ORD_MAP_OK);
    CHECK(written == 0 && from.index == 0 && from.generation == 0);
    CHECK(ord_map_entries(map, &handle, others, 2, keys, 2, values, 2, &written)
          == ORD_MAP_NOT_FOUND);
    CHECK(handle.index == 3);
}

static void handles(void) {
    struct ord_map map = {0};
    struct ord_map_handle a, b, c, d, again, other = {3, 4};
    uint64_t key = 1, value = 5, was = 6;
    uint8_t side = 9;
    CHECK(ord_map_new(&map) == ORD_MAP_OK && ord_map_new(&map) == ORD_MAP_MADE);
    without_an_entry(&map);
    CHECK(ord_map_insert(&map, 20, 200, &b, &was) == ORD_MAP_OK);
    CHECK(ord_map_insert(&map, 10, 100, &a, &was) == ORD_MAP_OK);
    CHECK(ord_map_insert(&map, 30, 300, &c, &was) == ORD_MAP_OK && was == 6);
    CHECK(ord_map_new(&map) == ORD_MAP_MADE && length_of(&map) == 3);
    CHECK(ord_map_insert(&map, 20, 201, &again, &was) == ORD_MAP_REPLACED && was == 200);
    CHECK(are_same(again, b) && length_of(&map) == 3);
    CHECK(ord_map_get(&map, b, &key, &value) == ORD_MAP_OK && key == 20 && value == 201);
    CHECK(ord_map_get_or_insert(&map, 20, 9, &again, &was) == ORD_MAP_FOUND && was == 201);
    CHECK(are_same(again, b) && length_of(&map) == 3);
    CHECK(ord_map_get(&map, b, &key, &value) == ORD_MAP_OK && key == 20 && value == 201);
    CHECK(ord_map_get_or_insert(&map, 25, 250, &d, &was) == ORD_MAP_OK && was == 201);
    CHECK(are_same(found(&map, 25), d) && length_of(&map) == 4);
    CHECK(ord_map_remove(&map, d, &key, &value) == ORD_MAP_OK && key == 25 && value == 250);
    CHECK(are_same(found(&map, 10), a) && are_same(found(&map, 30), c));
    CHECK(ord_map_find(&map, 15, &again) == ORD_MAP_NO_ENTRY && are_same(again, b));
    CHECK(ord_map_first(&map, &again) == ORD_MAP_OK && are_same(again, a));
    CHECK(ord_map_last(&map, &again) == ORD_MAP_OK && are_same(again, c));
    CHECK(ord_map_next(&map, a, &again) == ORD_MAP_OK && are_same(again, b));
    CHECK(ord_map_next(&map, b, &again) == ORD_MAP_OK && are_same(again, c));
    CHECK(ord_map_next(&map, c, &other) == ORD_MAP_NO_ENTRY && other.index == 3);
    CHECK(ord_map_previous(&map, c, &again) == ORD_MAP_OK && are_same(again, b));
    CHECK(ord_map_previous(&map, a, &other) == ORD_MAP_NO_ENTRY && other.index == 3);
    CHECK(ord_map_lower_bound(&map, 20, &again) == ORD_MAP_OK && are_same(again, b));
    CHECK(ord_map_lower_bound(&map, 21, &again) == ORD_MAP_OK && are_same(again, c));
    CHECK(ord_map_lower_bound(&map, 31, &other) == ORD_MAP_NO_ENTRY && other.index == 3);
    CHECK(ord_map_upper_bound(&map, 20, &again) == ORD_MAP_OK && are_same(again, c));
    CHECK(ord_map_upper_bound(&map, 30, &other) == ORD_MAP_NO_ENTRY && other.index == 3);
    CHECK(ord_map_nearest(&map, 20, &again, &side) == ORD_MAP_OK);
    CHECK(side == ORD_MAP_EQUAL && are_same(again, b));
    CHECK(ord_map_nearest(&map, 40, &again, &side) == ORD_MAP_OK);
    CHECK(side == ORD_MAP_BELOW && are_same(again, c));
    CHECK(ord_map_nearest(&map, 0, &again, &side) == ORD_MAP_OK);
    CHECK(side == ORD_MAP_ABOVE && are_same(again, a));
    CHECK(ord_map_nearest(&map, 25, &again, &side) == ORD_MAP_OK && side != ORD_MAP_EQUAL);
    CHECK(are_same(again, side == ORD_MAP_ABOVE ? c : b));
    struct ord_map_handle made_up[] = {
        {0, 0}, {a.index, 0}, {0, a.generation}, {a.index, a.generation + 1}, {4000000000u, 2}};
    for (size_t k = 0; k < sizeof made_up / sizeof made_up[0]; k++) {
        key = 1, value = 5;
        CHECK(ord_map_get(&map, made_up[k], &key, &value) == ORD_MAP_NOT_FOUND);
        CHECK(ord_map_set(&map, made_up[k], 1) == ORD_MAP_NOT_FOUND);
        CHECK(ord_map_remove(&map, made_up[k], &key, &value) == ORD_MAP_NOT_FOUND);
        CHECK(ord_map_next(&map, made_up[k], &other) == ORD_MAP_NOT_FOUND && other.index == 3);
        CHECK(ord_map_previous(&map, made_up[k], &other) == ORD_MAP_NOT_FOUND);
        CHECK(key == 1 && value == 5 && other.index == 3);
    }
    CHECK(ord_map_set(&map, a, 101) == ORD_MAP_OK);
    CHECK(ord_map_remove(&map, a, &key, &value) == ORD_MAP_OK && key == 10 && value == 101);
    CHECK(ord_map_get(&map, a, &key, &value) == ORD_MAP_NOT_FOUND && length_of(&map) == 2);
    CHECK(ord_map_insert(&map, 5, 50, &again, &was) == ORD_MAP_OK);
    CHECK(again.index == a.index && again.generation != a.generation);
    CHECK(ord_map_get(&map, a, &key, &value) == ORD_MAP_NOT_FOUND);
    CHECK(ord_map_remove_key(&map, 20, &value) == ORD_MAP_OK && value == 201);
    CHECK(ord_map_remove_key(&map, 20, &value) == ORD_MAP_NO_ENTRY);
    CHECK(ord_map_get(&map, b, &key, &value) == ORD_MAP_NOT_FOUND && key_of(&map, c) == 30);
    CHECK(ord_map_clear(&map) == ORD_MAP_OK);
    CHECK(ord_map_get(&map, c, &key, &value) == ORD_MAP_NOT_FOUND);
    without_an_entry(&map);
    ord_map_free(&map);
    ord_map_free(&map);
}

static void rooms(void) {
    struct ord_map map = {0};
    struct ord_map_handle handle;
    size_t capacity;
    uint64_t was;
    CHECK(ord_map_new(&map) == ORD_MAP_OK);
    CHECK(ord_map_capacity(&map, &capacity) == ORD_MAP_OK && capacity == 0);
    CHECK(ord_map_reserve(&map, 10) == ORD_MAP_OK);
    CHECK(ord_map_capacity(&map, &capacity) == ORD_MAP_OK && capacity == 10);
    CHECK(ord_map_reserve(&map, 3) == ORD_MAP_OK);
    CHECK(ord_map_reserve(&map, 4294967296u) == ORD_MAP_FULL);
    CHECK(ord_map_capacity(&map, &capacity) == ORD_MAP_OK && capacity == 10);
    for (uint64_t key = 0; key < 11; key++)
        CHECK(ord_map_insert(&map, key, key, &handle, &was) == ORD_MAP_OK);
    CHECK(ord_map_capacity(&map, &capacity) == ORD_MAP_OK && capacity == 20);
    ord_map_free(&map);
}

/* Reads of many, with arrays of all lengths up to 9 that are not the same. */
static void many_at_a_time(void) {
    enum { COUNT = 100 };
    struct ord_map map = {0};
    struct ord_map_handle given, read[9], from;
    uint64_t keys[9], values[9], was, key, value;
    size_t written;
    CHECK(ord_map_new(&map) == ORD_MAP_OK);
    for (uint64_t k = 0; k < COUNT; k++)
        CHECK(ord_map_insert(&map, k * 37 % 101 * 2, k, &given, &was) == ORD_MAP_OK);
    for (size_t room = 1; room < 9; room++) {
        uint64_t last = 0;
        size_t seen = 0;
        from = (struct ord_map_handle){0, 0};
        do {
            read[room].index = 77, keys[room] = 1234567, values[room] = 7654321;
            CHECK(ord_map_entries(&map, &from, read, room, keys, 9, values, room + 1, &written)
                  == ORD_MAP_OK);
            CHECK(written == room || (written < room && from.index == 0));
            CHECK(read[room].index == 77 && keys[room] == 1234567 && values[room] == 7654321);
            for (size_t k = 0; k < written; k++, seen++) {
                CHECK(ord_map_get(&map, read[k], &key, &value) == ORD_MAP_OK);
                CHECK(key == keys[k] && value == values[k] && value * 37 % 101 * 2 == key);
                CHECK(seen == 0 || last < key);
                last = key;
            }
        } while (from.index != 0);
        CHECK(seen == COUNT);
    }
    from = found(&map, 50);
    CHECK(ord_map_entries(&map, &from, read, 0, keys, 9, values, 9, &written) == ORD_MAP_OK);
    CHECK(written == 0 && key_of(&map, from) == 50);
    CHECK(ord_map_entries(&map, &from, read, 9, keys, 3, values, 9, &written) == ORD_MAP_OK);
    CHECK(written == 3 && keys[0] == 50);
    CHECK(ord_map_next(&map, read[2], &given) == ORD_MAP_OK && are_same(given, from));
    ord_map_free(&map);
}

enum { KEYS = 512 };

struct model {
    bool lives[KEYS];
    uint64_t values[KEYS];
    struct ord_map_handle handles[KEYS];
    size_t length;
};

static int above(const struct model *m, int key) {
    while (key < KEYS && !m->lives[key])
        key++;
    return key;
}

static int below(const struct model *m, int key) {
    while (key >= 0 && !m->lives[key])
        key--;
    return key;
}

static void expect(struct ord_map *map, const struct model *m, uint8_t status,
                   struct ord_map_handle handle, int key) {
    if (key < 0 || key >= KEYS) {
        CHECK(status == ORD_MAP_NO_ENTRY);
        return;
    }
    CHECK(status == ORD_MAP_OK && are_same(handle, m->handles[key]));
    CHECK(key_of(map, handle) == (uint64_t)key);
}

static void look_around(struct ord_map *map, const struct model *m, int key) {
    struct ord_map_handle h = {0, 0};
    expect(map, m, ord_map_lower_bound(map, (uint64_t)key, &h), h, above(m, key));
    expect(map, m, ord_map_upper_bound(map, (uint64_t)key, &h), h, above(m, key + 1));
    expect(map, m, ord_map_first(map, &h), h, above(m, 0));
    expect(map, m, ord_map_last(map, &h), h, below(m, KEYS - 1));
    expect(map, m, ord_map_find(map, (uint64_t)key, &h), h, m->lives[key] ? key : -1);
    if (m->lives[key]) {
        expect(map, m, ord_map_next(map, m->handles[key], &h), h, above(m, key + 1));
        expect(map, m, ord_map_previous(map, m->handles[key], &h), h, below(m, key - 1));
    }
}

static void random_calls(void) {
    enum { STEPS = 100000 };
    static struct model m;
    struct ord_map map = {0};
    srand(1);
    CHECK(ord_map_new(&map) == ORD_MAP_OK);
    for (int step = 0; step < STEPS; step++) {
        int kind = rand() % 9, key = rand() % KEYS;
        uint64_t value = (uint64_t)step, was = 77, gone = 77;
        struct ord_map_handle handle;
        if (kind < 4) {
            uint8_t status = m.lives[key] ? ORD_MAP_REPLACED : ORD_MAP_OK;
            CHECK(ord_map_insert(&map, (uint64_t)key, value, &handle, &was) == status);
            CHECK(was == (m.lives[key] ? m.values[key] : 77));
            CHECK(!m.lives[key] || are_same(handle, m.handles[key]));
            m.length += !m.lives[key];
            m.lives[key] = true, m.values[key] = value, m.handles[key] = handle;
        } else if (kind == 4) {
            uint8_t status = m.lives[key] ? ORD_MAP_OK : ORD_MAP_NO_ENTRY;
            CHECK(ord_map_remove_key(&map, (uint64_t)key, &was) == status);
            CHECK(was == (m.lives[key] ? m.values[key] : 77));
            m.length -= m.lives[key];
            m.lives[key] = false;
        } else if (kind == 5) {
            uint8_t status = m.lives[key] ? ORD_MAP_OK : ORD_MAP_NOT_FOUND;
            CHECK(ord_map_remove(&map, m.handles[key], &gone, &was) == status);
            CHECK(was == (m.lives[key] ? m.values[key] : 77));
            m.length -= m.lives[key];
            m.lives[key] = false;
        } else if (kind == 6) {
            uint8_t status = m.lives[key] ? ORD_MAP_OK : ORD_MAP_NOT_FOUND;
            CHECK(ord_map_set(&map, m.handles[key], value) == status);
            if (m.lives[key])
                m.values[key] = value;
        } else if (kind == 7) {
            uint8_t status = m.lives[key] ? ORD_MAP_FOUND : ORD_MAP_OK;
            CHECK(ord_map_get_or_insert(&map, (uint64_t)key, value, &handle, &was) == status);
            CHECK(was == (m.lives[key] ? m.values[key] : 77));
            CHECK(!m.lives[key] || are_same(handle, m.handles[key]));
            if (!m.lives[key]) {
                m.length++;
                m.lives[key] = true, m.values[key] = value, m.handles[key] = handle;
            }
        } else {
            look_around(&map, &m, key);
        }
        CHECK(length_of(&map) == m.length);
    }
    ord_map_free(&map);
}

typedef uint8_t insertion(struct ord_map *map, uint64_t key, uint64_t value,
                          struct ord_map_handle *handle, uint64_t *was);

/* Ten insertions by a call with the n-th request refused: the map is as it was, and goes on. */
static void refused_memory(insertion *insert) {
    bool was_refused = true;
    for (unsigned n = 1; was_refused; n++) {
        struct ord_map map = {0};
        struct ord_map_handle given[10];
        uint64_t was;
        was_refused = false;
        refused_request = n;
        if (ord_map_new(&map) == ORD_MAP_NO_MEMORY) {
            was_refused = true;
            CHECK(map.at == NULL && !map.is_made && ord_map_new(&map) == ORD_MAP_OK);
        }
        for (size_t k = 0; k < 10; k++) {
            uint8_t status = insert(&map, 9 - k, k, &given[k], &was);
            if (status == ORD_MAP_NO_MEMORY) {
                was_refused = true;
                CHECK(length_of(&map) == k);
                status = insert(&map, 9 - k, k, &given[k], &was);
            }
            CHECK(status == ORD_MAP_OK);
        }
        for (size_t k = 0; k < 10; k++)
            CHECK(key_of(&map, given[k]) == 9 - k);
        refused_request = was_refused ? 1 : 0;
        if (was_refused) {
            CHECK(ord_map_reserve(&map, 1000) == ORD_MAP_NO_MEMORY && length_of(&map) == 10);
            refused_request = 1;
            CHECK(ord_map_insert(&map, 3, 30, &given[6], &was) == ORD_MAP_REPLACED && was == 6);
            CHECK(ord_map_get_or_insert(&map, 3, 9, &given[6], &was) == ORD_MAP_FOUND && was == 30);
            CHECK(refused_request == 1);
        }
        refused_request = 0;
        ord_map_free(&map);
    }
    refused_request = 0;
}

int main(void) {
    without_a_map();
    handles();
    rooms();
    many_at_a_time();
    random_calls();
    refused_memory(ord_map_insert);
    refused_memory(ord_map_get_or_insert);
    puts("ord_map: all as it should be");
    return 0;
}
