/* The whole-image sweep written by hand in C, by the same method and with the same caches: what the proved call is measured beside. */
#include <stddef.h>
#include <stdint.h>

typedef struct {
    uint64_t hits, fetched, spared;
} byhand_found;

/* The book is not tested. The buffers have room for `room` hits each: ends rise, and at one end the longest token comes first. */
byhand_found byhand_sweep(const uint8_t *book, const uint8_t *image, size_t n, uint32_t *ends, uint32_t *tokens, size_t room);
