/* A million calls, and not a byte is lost.
 * cc -Itarget/library bindings/c/count_memory.c target/library/libtizulgech.a -Wl,--wrap=malloc,--wrap=realloc,--wrap=free */
#include "heap.h"
#include "calls.h"

int main(void) {
    setvbuf(stdout, NULL, _IONBF, 0);
    long count = 0, turns = 0;
    for (; count < 1000000; turns++) {
        if (!is_begun()) return 1;
        long pieces = heap_pieces, bytes = heap_bytes;
        count += 11;
        for (int i = 0; i < CALLS; i++, count += calls[i - 1].count)
            if (calls[i].call()) return printf("%s fails\n", calls[i].name), 2;
        if (heap_pieces != pieces || heap_bytes != bytes) return printf("%ld bytes are lost\n", heap_bytes - bytes), 3;
        uint8_t previous[36], commit[36];
        int number = tizulgech_apply(&repository, TEXT("did:web:a.b"), TEXT("3jzfcijpj2z2a"), &place, cid, 36, previous, 36, commit, 36);
        if (number != TIZULGECH_REV_ORDER || tizulgech_stage(&repository, 3, TEXT("a.b.c/d"), NULL, 0)) return 4;
        if (tizulgech_apply(&repository, TEXT("did:web:a.b"), TEXT("3jzfcijpj2z2b"), &place, cid, 36, previous, 36, commit, 36)) return 5;
        end();
        count += 5;
        if (heap_pieces || heap_bytes) return printf("%ld bytes are lost after %ld calls\n", heap_bytes, count), 6;
    }
    printf("%ld calls over %ld repositories, %ld requests for memory: all is given back\n", count, turns, heap_asked);
    return 0;
}
