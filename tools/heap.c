/* The heap of a C library that tools/c-library makes for a machine for which the kit has none: what compiled crates ask of C's
   malloc, realloc and free. A call for no bytes asks for as many as its alignment, so that it has a place of its own. */
#include <stdint.h>
#include <stdlib.h>

/* Whether there was memory, 1 or 0, and where. */
typedef struct rattle_memory {
  uint64_t is_there;
  void *at;
} rattle_memory;

static unsigned char nowhere;

static rattle_memory told(void *at) { return (rattle_memory){at != NULL, at ? at : &nowhere}; }

rattle_memory rattle_alloc(size_t size, size_t align);
rattle_memory rattle_realloc(void *at, size_t old_size, size_t size, size_t align);
void rattle_dealloc(void *at);

rattle_memory rattle_alloc(size_t size, size_t align) { return told(malloc(size ? size : align)); }

rattle_memory rattle_realloc(void *at, size_t old_size, size_t size, size_t align) {
  (void)old_size;
  return told(realloc(at, size ? size : align));
}

void rattle_dealloc(void *at) { free(at); }
