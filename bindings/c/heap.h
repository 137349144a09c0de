/* The heap of a test, which counts what is held and refuses a request where it is told to. It wants the linker's
 * --wrap=malloc,--wrap=realloc,--wrap=free: the calls of the library and of the test go through it then. */
#include <malloc.h>
#include <stddef.h>

void *__real_malloc(size_t);
void *__real_realloc(void *, size_t);
void __real_free(void *);

/* How many requests were made; how many pieces and bytes are held; how many requests pass before one is refused, none where it is below 0. */
static long heap_asked, heap_pieces, heap_bytes, heap_left = -1;

static int heap_refuses(void) {
    heap_asked++;
    return heap_left >= 0 && heap_left-- == 0;
}
static void heap_take(void *piece, long sign) {
    if (piece) {
        heap_pieces += sign;
        heap_bytes += sign * (long)malloc_usable_size(piece);
    }
}
void *__wrap_malloc(size_t size) {
    void *piece = heap_refuses() ? NULL : __real_malloc(size);
    heap_take(piece, 1);
    return piece;
}
void *__wrap_realloc(void *old, size_t size) {
    if (heap_refuses()) return NULL;
    heap_take(old, -1);
    void *piece = __real_realloc(old, size);
    heap_take(piece ? piece : old, 1);
    return piece;
}
void __wrap_free(void *piece) {
    heap_take(piece, -1);
    __real_free(piece);
}
