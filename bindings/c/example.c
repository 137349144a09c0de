/* A batch, a record, a file and a proof: cc -Itarget/library bindings/c/example.c target/library/libtizulgech.a */
#include "tizulgech.h"
#include <stdio.h>
#include <string.h>
#define TEXT(s) (const uint8_t *)(s), strlen(s)

static const char *key = "app.bsky.feed.post/3jzfcijpj2z2a";

int main(void) {
    tizulgech_repository repo = {0};
    uint8_t root[36], before[36], commit[36], value[36], text[60] = {0}, record[64], proof[4096];
    size_t place, size;
    /* none is open yet */
    if (tizulgech_get(&repo, TEXT(key), record, sizeof record, &size) != TIZULGECH_CLOSED) return 1;
    if (tizulgech_open(1000, &repo) != TIZULGECH_DONE || tizulgech_open(1000, &repo) != TIZULGECH_OPEN) return 2;
    tizulgech_stage(&repo, 0, TEXT(key), TEXT("\xa1\x64text\x65hello"));
    /* what the batch is to make of the tree, for whoever knows the root before: the root after, what the key had, and nodes of the tree */
    uint8_t step[4096], wanted[36];
    size_t key_end = strlen(key), step_size;
    tizulgech_cid(TEXT("\xa1\x64text\x65hello"), wanted, 36);
    if (tizulgech_prove_change(&repo, TEXT(key), &key_end, 1, wanted, 36, step, sizeof step, &step_size) != TIZULGECH_DONE) return 19;
    uint8_t code = tizulgech_apply(&repo, TEXT("did:web:example.com"), TEXT("3jzfcijpj2z2a"), &place, root, 36, before, 36, commit, 36);
    if (code != TIZULGECH_DONE) {
        printf("refused: %d at %zu\n", code, place);
        return 3;
    }
    tizulgech_cid_text(root, 36, text, 59);
    /* the root, the one before, which is that of no records, and the commit, whose bytes are what the owner signs */
    uint8_t now[36], last[36], signing[256];
    const uint8_t *empty = (const uint8_t *)"\xa2\x61\x65\x80\x61\x6c\xf6";
    if (tizulgech_root(&repo, now, 36) || memcmp(now, root, 36) || tizulgech_commit(&repo, last, 36) || memcmp(last, commit, 36)) return 16;
    tizulgech_cid(empty, 7, now, 36);
    if (memcmp(now, before, 36) || tizulgech_commit_bytes(TEXT("did:web:example.com"), TEXT("3jzfcijpj2z2a"), root, 36, signing, sizeof signing, &size)) return 17;
    tizulgech_cid(signing, size, last, 36);
    if (memcmp(last, commit, 36)) return 18;
    if (tizulgech_get(&repo, TEXT(key), record, sizeof record, &size) != TIZULGECH_DONE) return 4;
    printf("%s, a record of %zu bytes\n", text, size);
    /* no room: the size that is wanted; a null pointer beside 0 is an empty room, or an empty key */
    if (tizulgech_car(&repo, NULL, 0, &size) != TIZULGECH_SMALL) return 5;
    printf("a file of %zu bytes\n", size);
    if (tizulgech_list(&repo, NULL, 0, 10, proof, sizeof proof, &size) != TIZULGECH_DONE || size != 8 + strlen(key) + 36) return 6;
    /* the proof of a tree of one node is that node: its length, and then its bytes */
    if (tizulgech_prove(&repo, TEXT(key), proof, sizeof proof, &size) != TIZULGECH_DONE) return 7;
    size_t end = size - 8;
    if (tizulgech_verify(proof + 8, end, &end, 1, root, 36, TEXT(key), value, 36) != TIZULGECH_DONE) return 8;
    tizulgech_cid(record, 12, before, 36);
    if (memcmp(value, before, 36) != 0) return 9;
    /* and whoever knows the root before sees that the batch leads to the one after: the key had none, and has this record */
    uint8_t none[36] = {0}, previous[36], missing[36];
    size_t empty_end = 7;
    if (tizulgech_cids(empty, 7, &empty_end, 1, previous, 36, &size) != TIZULGECH_DONE) return 13;
    if (memcmp(step, root, 36) || memcmp(step + 36, none, 36) || memcmp(wanted, value, 36)) return 20;
    end = step_size - 36 - 36 - 8;
    if (tizulgech_verify_change(step + 80, end, &end, 1, previous, 36, root, 36, TEXT(key), &key_end, 1, none, 36, value, 36, missing, 36, &place))
        return 12;
    /* undone, as the event stream does it, over nodes of the tree after */
    if (tizulgech_prove_inversion(&repo, TEXT(key), &key_end, 1, none, 36, value, 36, &place, proof, sizeof proof, &size) != TIZULGECH_DONE) return 11;
    end = size - 8;
    if (tizulgech_verify_inversion(proof + 8, end, &end, 1, previous, 36, root, 36, TEXT(key), &key_end, 1, none, 36, value, 36, missing, 36, &place))
        return 21;
    /* the same tree over a host's own nodes: the empty one, whose CID is known, so that it isn't hashed again */
    uint8_t edit[4096];
    if (tizulgech_tree_apply(empty, 7, &empty_end, 1, previous, 36, previous, 36, TEXT(key), &key_end, 1, value, 36, missing, 36, edit, sizeof edit, &size))
        return 14;
    if (memcmp(edit, root, 36) != 0) return 15;
    tizulgech_close(&repo);
    tizulgech_close(&repo);
    return tizulgech_number(&repo, &(uint64_t){0}) == TIZULGECH_CLOSED ? 0 : 10;
}
