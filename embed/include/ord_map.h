/* An ordered map of 64-bit keys and 64-bit values, which has each key once. Each entry gets a
 * handle of 64 bits, which finds it until it is removed, and nothing from then on, whatever is
 * stored later.
 *
 * A map is made of zeros: `struct ord_map map = {0};`. It keeps nothing then, and each call says so
 * by ORD_MAP_NO_MAP. `ord_map_new` puts a map into it, and `ord_map_free` frees that. What the two
 * fields hold is the library's own: never write them, never copy the struct once it is made, and
 * use it from one thread at a time. Pointers are never NULL, also those to arrays of length 0, and
 * no two that a call gets overlap.
 *
 * A handle of another map, or one that was made up, finds what its numbers name in this map, or
 * nothing. One with a zero in it finds nothing. */
#ifndef ORD_MAP_H
#define ORD_MAP_H

#include <stdbool.h>
#include <stddef.h>
#include <stdint.h>

#ifdef __cplusplus
extern "C" {
#endif

struct ord_map {
    void *at;
    bool is_made;
};

struct ord_map_handle {
    uint32_t index;
    uint32_t generation;
};

/* What a call answers. After any other than ORD_MAP_OK and ORD_MAP_REPLACED nothing has changed,
 * and after any other than these and ORD_MAP_FOUND nothing was written. */
enum ord_map_status {
    ORD_MAP_OK = 0,
    ORD_MAP_NO_MEMORY = 1, /* malloc refused */
    ORD_MAP_FULL = 2,      /* more entries than there are indexes, 4,294,967,295 */
    ORD_MAP_SPENT = 3,     /* each generation was given: no key can be added any more */
    ORD_MAP_NOT_FOUND = 4, /* the handle finds no entry */
    ORD_MAP_NO_MAP = 5,    /* the struct keeps no map */
    ORD_MAP_MADE = 6,      /* the struct keeps a map already */
    ORD_MAP_NO_ENTRY = 7,  /* there is no such entry */
    ORD_MAP_REPLACED = 8,  /* it is done: the key had a value, which gave way */
    ORD_MAP_FOUND = 9      /* it is done: the key has an entry, which stays as it is */
};

/* What `ord_map_nearest` found. */
enum ord_map_side {
    ORD_MAP_EQUAL = 0, /* the entry with the key */
    ORD_MAP_ABOVE = 1, /* no entry has the key, and this is the first one above it */
    ORD_MAP_BELOW = 2  /* no entry has the key, and this is the last one below it */
};

/* Makes an empty map, which takes memory for itself alone. Answers OK, NO_MEMORY or MADE. */
uint8_t ord_map_new(struct ord_map *map);

/* Frees the map, if there is one, with its memory. The struct then keeps none; a second call does
 * nothing. */
void ord_map_free(struct ord_map *map);

/* Writes how many entries there are. Answers OK or NO_MAP. */
uint8_t ord_map_length(struct ord_map *map, size_t *length);

/* Writes how many entries fit before the map takes more memory. Answers OK or NO_MAP. */
uint8_t ord_map_capacity(struct ord_map *map, size_t *capacity);

/* Makes room for `min` entries, by a growth to exactly that if there is less. Answers OK,
 * NO_MEMORY, FULL (`min` is past 4,294,967,295) or NO_MAP. */
uint8_t ord_map_reserve(struct ord_map *map, size_t min);

/* Puts a value in at a key, and writes the handle of the entry. If the key has an entry, that keeps
 * its handle, and `was` gets the value that gives way (REPLACED); this takes no memory, also in a
 * map that is full or spent. Else there is one entry more (OK), and `was` is not written; a full
 * map grows: to room for 4 at first, then for the double. Answers OK, REPLACED, NO_MEMORY, FULL,
 * SPENT or NO_MAP. */
uint8_t ord_map_insert(struct ord_map *map, uint64_t key, uint64_t value,
                       struct ord_map_handle *handle, uint64_t *was);

/* Writes the handle of the entry with this key, and its value to `found`; the entry stays as it is
 * (FOUND), and this takes no memory, also in a map that is full or spent. If no entry has the key,
 * it puts in a new one with this value, as `ord_map_insert` does (OK), and `found` is not written.
 * Answers OK, FOUND, NO_MEMORY, FULL, SPENT or NO_MAP. */
uint8_t ord_map_get_or_insert(struct ord_map *map, uint64_t key, uint64_t value,
                              struct ord_map_handle *handle, uint64_t *found);

/* Writes the handle of the entry with this key. Answers OK, NO_ENTRY or NO_MAP. */
uint8_t ord_map_find(struct ord_map *map, uint64_t key, struct ord_map_handle *handle);

/* Writes the handle of the entry with this key, and EQUAL; or if no entry has it, that of one of
 * the two neighbors of its place, and ABOVE or BELOW. Which of the two, where there are both, is
 * the library's choice. Answers OK, NO_ENTRY (there is no entry at all) or NO_MAP. */
uint8_t ord_map_nearest(struct ord_map *map, uint64_t key, struct ord_map_handle *handle,
                        uint8_t *side);

/* Writes the handle of the first entry whose key is not below this one. Answers OK, NO_ENTRY or
 * NO_MAP. */
uint8_t ord_map_lower_bound(struct ord_map *map, uint64_t key, struct ord_map_handle *handle);

/* Writes the handle of the first entry whose key is above this one. Answers OK, NO_ENTRY or
 * NO_MAP. */
uint8_t ord_map_upper_bound(struct ord_map *map, uint64_t key, struct ord_map_handle *handle);

/* Writes the key and the value that the handle finds. Answers OK, NOT_FOUND or NO_MAP. */
uint8_t ord_map_get(struct ord_map *map, struct ord_map_handle handle, uint64_t *key,
                    uint64_t *value);

/* Puts a value in place of the one that the handle finds; the key stays. Answers OK, NOT_FOUND or
 * NO_MAP. */
uint8_t ord_map_set(struct ord_map *map, struct ord_map_handle handle, uint64_t value);

/* Removes the entry that the handle finds, and writes its key and its value. Each removal takes a
 * generation; after some four thousand million the map is spent. Answers OK, NOT_FOUND or NO_MAP.
 */
uint8_t ord_map_remove(struct ord_map *map, struct ord_map_handle handle, uint64_t *key,
                       uint64_t *value);

/* Removes the entry with this key, by a generation too, and writes its value. Answers OK, NO_ENTRY
 * or NO_MAP. */
uint8_t ord_map_remove_key(struct ord_map *map, uint64_t key, uint64_t *value);

/* Writes the handle of the entry with the least key. Answers OK, NO_ENTRY or NO_MAP. */
uint8_t ord_map_first(struct ord_map *map, struct ord_map_handle *handle);

/* Writes the handle of the entry with the greatest key. Answers OK, NO_ENTRY or NO_MAP. */
uint8_t ord_map_last(struct ord_map *map, struct ord_map_handle *handle);

/* Writes the handle of the entry behind that which the handle finds, in the order of the keys.
 * Answers OK, NOT_FOUND, NO_ENTRY (there is none behind it) or NO_MAP. */
uint8_t ord_map_next(struct ord_map *map, struct ord_map_handle handle,
                     struct ord_map_handle *next);

/* Writes the handle of the entry before that which the handle finds, in the order of the keys.
 * Answers OK, NOT_FOUND, NO_ENTRY (there is none before it) or NO_MAP. */
uint8_t ord_map_previous(struct ord_map *map, struct ord_map_handle handle,
                         struct ord_map_handle *previous);

/* Removes every entry, by one generation for all, which is taken also if there is none. The
 * capacity stays. Answers OK or NO_MAP. */
uint8_t ord_map_clear(struct ord_map *map);

/* Writes the handles, the keys and the values of the entries from that which `*from` finds on, in
 * the order of the keys, as many as all three arrays take, and how many; from zeros on, from the
 * least key on. `*from` is then the handle of the entry behind them, or zeros if there is none. So
 * calls from zeros on, until it is zeros again, give each entry once. Answers OK, NOT_FOUND
 * (`*from` is not zeros, and finds no entry) or NO_MAP. */
uint8_t ord_map_entries(struct ord_map *map, struct ord_map_handle *from,
                        struct ord_map_handle *handles, size_t handles_length, uint64_t *keys,
                        size_t keys_length, uint64_t *values, size_t values_length,
                        size_t *written);

#ifdef __cplusplus
}
#endif

#endif
