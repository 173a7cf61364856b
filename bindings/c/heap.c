/* The heap of the archive of lines: what Rattle's `Global` asks of malloc, realloc and free. bindings/release compiles it into libgelvanh_line.a. */

/* No header is read, so that it is compiled for each processor without that one's C library. */
typedef __SIZE_TYPE__ size_t;
void *malloc(size_t size);
void *realloc(void *at, size_t size);
void free(void *at);

/* Whether there is a block, and its place. */
struct block {
    __UINT64_TYPE__ is_there;
    void *at;
};

static char nothing[16];

static struct block block_at(void *at) {
    struct block it;
    it.is_there = at != 0;
    it.at = at != 0 ? at : nothing;
    return it;
}

/* A block of this size, which is aligned to 16 bytes as malloc's are. One of no bytes has as many as it is aligned to, since malloc may give
 * a null pointer for none. */
struct block rattle_alloc(size_t size, size_t alignment) {
    return block_at(malloc(size != 0 ? size : alignment));
}

/* The block with another size. If memory is refused, it stays as it was. */
struct block rattle_realloc(void *at, size_t before, size_t size, size_t alignment) {
    (void)before;
    return block_at(realloc(at, size != 0 ? size : alignment));
}

void rattle_dealloc(void *at) {
    free(at);
}
