/* Each request for memory refused in turn: a call says 255 and is as if it hadn't been made, or is done; and nothing leaks.
 * cc -Itarget/library bindings/c/refuse_memory.c target/library/libtizulgech.a -Wl,--wrap=malloc,--wrap=realloc,--wrap=free */
#include "heap.h"
#include "calls.h"

/* Refuses each request of each call that takes memory; the others make none. */
static int are_calls_refused(void) {
    if (!is_begun()) return 0;
    long pieces = heap_pieces, bytes = heap_bytes;
    for (int i = 0; i < CALLS; i++) {
        long refused = 0;
        for (long at = 0, none = 0; !none; at++) {
            heap_asked = 0, heap_left = at;
            int number = calls[i].call();
            none = heap_asked <= at, heap_left = -1;
            if (number && (number != TIZULGECH_NO_MEMORY || none)) return printf("%s answers %d at request %ld\n", calls[i].name, number, at), 0;
            if (of_reading()) return printf("%s changed at request %ld\n", calls[i].name, at), 0;
            if (heap_pieces != pieces || heap_bytes != bytes) return printf("%s leaks at request %ld\n", calls[i].name, at), 0;
            refused += number != 0;
        }
        if (calls[i].takes_memory != (refused > 0)) return printf("%s: %ld refusals\n", calls[i].name, refused), 0;
    }
    end();
    return heap_pieces == 0;
}

/* Refuses each request of a batch of five writes. */
static int is_batch_refused(long *refused) {
    int number = TIZULGECH_NO_MEMORY;
    for (long at = 0; number; at++) {
        if (!is_begun()) return 0;
        tizulgech_clear(&repository);
        heap_left = at, number = 0;
        char key[16];
        uint8_t after[36], now[36], commit[36];
        for (int i = 0; i < 5 && !number; i++) {
            sprintf(key, "a.b.c/x%d", i);
            number = tizulgech_stage(&repository, i & 1, TEXT(key), TEXT("\xa1\x61k\x02"));
        }
        if (!number) number = tizulgech_apply(&repository, TEXT("did:web:a.b"), TEXT("3jzfcijpj2z2b"), &place, after, 36, cid, 36, commit, 36);
        heap_left = -1;
        *refused += number == TIZULGECH_NO_MEMORY;
        uint64_t count;
        tizulgech_root(&repository, now, 36), tizulgech_number(&repository, &count);
        if ((number && number != TIZULGECH_NO_MEMORY) || memcmp(now, number ? root : after, 36) || count != (number ? 3 : 8))
            return printf("%d at request %ld of a batch\n", number, at), 0;
        end();
        if (heap_pieces) return printf("a batch leaks at request %ld\n", at), 0;
    }
    return 1;
}

int main(void) {
    long refused = 0;
    setvbuf(stdout, NULL, _IONBF, 0);
    if (!are_calls_refused() || !is_batch_refused(&refused)) return 1;
    printf("each request of each call and the %ld of a batch refused in turn: as before or after, and nothing leaks\n", refused);
    return 0;
}
