/* A root that no records have: undone, the change that is told leads back, though a record is lost. As a step it is refused.
 * cc -Itarget/library bindings/c/lost.c target/library/libtizulgech.a && ./a.out examples/lost.txt */
#include "tizulgech.h"
#include <stdio.h>
#include <string.h>
#define TEXT(s) (const uint8_t *)(s), strlen(s)

/* The roots before and after, and the change of a key that comes. */
static uint8_t roots[2][36], value[36];
static char key[64];
/* The nodes that are told, one after another, and where each ends. */
static uint8_t nodes[1024];
static size_t ends[2];

/* Reads what `msthost prove-change` writes of one key that comes, with two nodes. */
static int is_read(FILE *file) {
    char line[1024];
    size_t at = 0;
    for (int i = 0; i < 2; i++)
        if (fscanf(file, "%1023s", line) != 1 || tizulgech_cid_from_text(TEXT(line), roots[i], 36) != TIZULGECH_DONE) return 0;
    if (fscanf(file, " change %63s - %1023s", key, line) != 2 || tizulgech_cid_from_text(TEXT(line), value, 36) != TIZULGECH_DONE) return 0;
    for (int i = 0; i < 2; i++) {
        unsigned byte;
        if (fscanf(file, "%1023s", line) != 1) return 0;
        for (size_t from = 0; sscanf(line + from, "%2x", &byte) == 1; from += 2) nodes[at++] = (uint8_t)byte;
        ends[i] = at;
    }
    return 1;
}

int main(int count, char **words) {
    static const uint8_t none[36] = {0};
    const uint8_t *before = roots[0], *after = roots[1];
    uint8_t missing[36], had[36];
    size_t place;
    FILE *file = count == 2 ? fopen(words[1], "r") : NULL;
    if (!file || !is_read(file)) return 1;
    fclose(file);
    size_t end = strlen(key);
    if (tizulgech_verify_inversion(nodes, ends[1], ends, 2, before, 36, after, 36, TEXT(key), &end, 1, none, 36, value, 36, missing, 36, &place)) return 2;
    uint8_t step = tizulgech_verify_change(nodes, ends[1], ends, 2, before, 36, after, 36, TEXT(key), &end, 1, none, 36, value, 36, missing, 36, &place);
    if (step != TIZULGECH_OTHER_ROOT) return 3;
    /* the record that is lost */
    if (tizulgech_verify(nodes, ends[1], ends, 2, before, 36, TEXT("posts/10"), had, 36) != TIZULGECH_DONE) return 4;
    if (tizulgech_verify(nodes, ends[1], ends, 2, after, 36, TEXT("posts/10"), had, 36) != TIZULGECH_NONE) return 5;
    printf("undone, %s leads back, and a record is lost; as a step it is refused\n", key);
    return 0;
}
