/* A slot map of 64-bit values. Each value gets a handle of 64 bits, which finds it until it is
 * removed, and nothing from then on, whatever is stored later.
 *
 * A map is made of zeros: `struct slot_map map = {0};`. It keeps nothing then, and each call says
 * so by SLOT_MAP_NO_MAP. `slot_map_new` puts a map into it, and `slot_map_free` frees that. What
 * the two fields hold is the library's own: never write them, never copy the struct once it is
 * made, and use it from one thread at a time. Pointers are never NULL, also those to arrays of
 * length 0, and no two that a call gets overlap.
 *
 * A handle of another map, or one that was made up, finds what its numbers name in this map, or
 * nothing. One with a zero in it finds nothing. */
#ifndef SLOT_MAP_H
#define SLOT_MAP_H

#include <stdbool.h>
#include <stddef.h>
#include <stdint.h>

#ifdef __cplusplus
extern "C" {
#endif

struct slot_map {
    void *at;
    bool is_made;
};

struct slot_map_handle {
    uint32_t index;
    uint32_t generation;
};

/* What a call answers. After any other than SLOT_MAP_OK nothing has changed, and nothing was
 * written. */
enum slot_map_status {
    SLOT_MAP_OK = 0,
    SLOT_MAP_NO_MEMORY = 1, /* malloc refused */
    SLOT_MAP_FULL = 2,      /* more entries than there are indexes, 4,294,967,295 */
    SLOT_MAP_SPENT = 3,     /* each generation was given: no entry can be stored any more */
    SLOT_MAP_NOT_FOUND = 4, /* the handle finds no entry */
    SLOT_MAP_NO_MAP = 5,    /* the struct keeps no map */
    SLOT_MAP_MADE = 6,      /* the struct keeps a map already */
    SLOT_MAP_SHORT = 7      /* an array is shorter than the number of entries */
};

/* Makes an empty map, which takes memory for itself alone. Answers OK, NO_MEMORY or MADE. */
uint8_t slot_map_new(struct slot_map *map);

/* Frees the map, if there is one, with its memory. The struct then keeps none; a second call does
 * nothing. */
void slot_map_free(struct slot_map *map);

/* Writes how many entries there are. Answers OK or NO_MAP. */
uint8_t slot_map_length(struct slot_map *map, size_t *length);

/* Writes how many entries fit before the map takes more memory. Answers OK or NO_MAP. */
uint8_t slot_map_capacity(struct slot_map *map, size_t *capacity);

/* Makes room for `min` entries, by a growth to exactly that if there is less. Answers OK,
 * NO_MEMORY, FULL (`min` is past 4,294,967,295) or NO_MAP. */
uint8_t slot_map_reserve(struct slot_map *map, size_t min);

/* Stores a value, and writes its handle. A full map grows: to room for 4 at first, then for the
 * double. Answers OK, NO_MEMORY, FULL, SPENT or NO_MAP. */
uint8_t slot_map_insert(struct slot_map *map, uint64_t value, struct slot_map_handle *handle);

/* Writes the value that the handle finds. Answers OK, NOT_FOUND or NO_MAP. */
uint8_t slot_map_get(struct slot_map *map, struct slot_map_handle handle, uint64_t *value);

/* Answers OK if the handle finds an entry, or NOT_FOUND or NO_MAP. */
uint8_t slot_map_contains(struct slot_map *map, struct slot_map_handle handle);

/* Puts a value in place of the one that the handle finds. Answers OK, NOT_FOUND or NO_MAP. */
uint8_t slot_map_set(struct slot_map *map, struct slot_map_handle handle, uint64_t value);

/* Removes the entry that the handle finds, and writes its value. Each removal takes a generation;
 * after some four thousand million the map is spent. Answers OK, NOT_FOUND or NO_MAP. */
uint8_t slot_map_remove(struct slot_map *map, struct slot_map_handle handle, uint64_t *value);

/* Removes every entry, by one generation for all, which is taken also if there is none. The
 * capacity stays. Answers OK or NO_MAP. */
uint8_t slot_map_clear(struct slot_map *map);

/* Moves the entries to the indexes from 1 on, in the order that they have, and gives each a new
 * handle, by one generation for all. What `old_handles[k]` found, `new_handles[k]` finds now, for
 * each k below `*written`; the old ones find nothing. It takes no memory. Each array has room for
 * all entries. Answers OK, SPENT (no generation is left for the new handles), NO_MAP or SHORT. */
uint8_t slot_map_compress(struct slot_map *map, struct slot_map_handle *old_handles,
                          size_t old_length, struct slot_map_handle *new_handles,
                          size_t new_length, size_t *written);

/* Writes the handles and the values of the entries whose index is past `*last`, by rising index, as
 * many as both arrays take, and how many; `*last` is then the index of the last one. From 0 on,
 * calls until `*written` is 0 give each entry once. Answers OK or NO_MAP. */
uint8_t slot_map_read(struct slot_map *map, uint32_t *last, struct slot_map_handle *handles,
                      size_t handles_length, uint64_t *values, size_t values_length,
                      size_t *written);

#ifdef __cplusplus
}
#endif

#endif
