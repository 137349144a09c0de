/* A null pointer beside the length 0 is no bytes, in C and in C++; beside any other length it stays what it is.
 * cc -Itarget/library bindings/c/null_pointers.c target/library/libtizulgech.a, or c++ -x c++ of the same */
#include "tizulgech.h"
#include <string.h>

#define KEY (const uint8_t *)"a.b.c/d", 7
#define DID (const uint8_t *)"did:web:a.b", 11
#define REV (const uint8_t *)"3jzfcijpj2z2a", 13
#define RECORD (const uint8_t *)"\xa0", 1
#define NODE (const uint8_t *)"\xa2\x61\x65\x80\x61\x6c\xf6", 7

static int of_pointers(void) {
    const uint8_t byte = 0;
    const size_t end = 0;
    uint8_t room = 0;
    return tizulgech_some(NULL, 0) && tizulgech_ends(NULL, 0) && tizulgech_room(NULL, 0) && !tizulgech_some(NULL, 1) && !tizulgech_ends(NULL, 1) && !tizulgech_room(NULL, 36)
        && tizulgech_some(&byte, 0) == &byte && tizulgech_some(&byte, 1) == &byte && tizulgech_ends(&end, 1) == &end && tizulgech_room(&room, 1) == &room;
}

static int of_values(void) {
    uint8_t none[36], cid[36];
    tizulgech_cid(NULL, 0, none, 36);
    tizulgech_cid((const uint8_t *)"", 0, cid, 36);
    return memcmp(none, cid, 36) == 0 && tizulgech_record_fault(NULL, 0) == TIZULGECH_TRUNCATED && tizulgech_layer(NULL, 0) == tizulgech_layer((const uint8_t *)"", 0)
        && !tizulgech_is_key(NULL, 0) && !tizulgech_is_repository_key(NULL, 0) && !tizulgech_is_did(NULL, 0) && !tizulgech_is_tid(NULL, 0)
        && tizulgech_cid_from_text(NULL, 0, cid, 36) == TIZULGECH_CID_LENGTH && tizulgech_step(NULL, 0, KEY, cid, 36) == TIZULGECH_BAD_NODE
        && tizulgech_step(NODE, NULL, 0, cid, 36) == TIZULGECH_NONE && tizulgech_stamp_fault(NULL, 0, DID, REV) == TIZULGECH_DONE
        && tizulgech_write_fault(0, false, NULL, 0, NULL, 0) == TIZULGECH_BAD_KEY && tizulgech_write_fault(3, true, KEY, NULL, 0) == TIZULGECH_DONE
        && tizulgech_write_fault(0, false, KEY, NULL, 0) == TIZULGECH_TRUNCATED && tizulgech_version() == TIZULGECH_VERSION
        && tizulgech_stamp_fault(NULL, 0, NULL, 0, REV) == TIZULGECH_BAD_DID && tizulgech_stamp_fault(NULL, 0, DID, NULL, 0) == TIZULGECH_BAD_REV;
}

static int of_commits(void) {
    uint8_t root[36], cid[36], commit[256];
    size_t place, size;
    tizulgech_cid(NODE, root, 36);
    return tizulgech_signed_commit(NULL, 0, NULL, 0, root, 36, NULL, 0, commit, sizeof commit, &size) == TIZULGECH_DONE
        && tizulgech_read_commit(commit, size, NULL, 0, &size) == TIZULGECH_COMMIT_DID && tizulgech_read_commit(NULL, 0, NULL, 0, &size) == TIZULGECH_NOT_A_COMMIT
        && tizulgech_signed_commit(DID, REV, NULL, 0, NULL, 0, NULL, 0, &size) == TIZULGECH_BAD
        && tizulgech_file_head(root, 36, NULL, 0, &size) == TIZULGECH_SMALL && tizulgech_file_head(NULL, 0, NULL, 0, &size) == TIZULGECH_BAD
        && tizulgech_file_section(root, 36, NULL, 0, commit, sizeof commit, &size) == TIZULGECH_DONE && size == 37
        && tizulgech_file_section(NULL, 0, NULL, 0, NULL, 0, &size) == TIZULGECH_BAD
        && tizulgech_next_tid(NULL, 0, 0, 0, NULL, 0, &size) == TIZULGECH_SMALL && size == 13
        && tizulgech_check_commit(root, 36, NULL, 0, &place, cid, 36, NULL, 0, &size) == TIZULGECH_NOT_A_MESSAGE
        && tizulgech_check_commit(NULL, 0, NULL, 0, &place, cid, 36, NULL, 0, &size) == TIZULGECH_BAD;
}

static int of_trees(void) {
    uint8_t root[36], cid[36];
    size_t end = 7, size;
    tizulgech_cid(NODE, root, 36);
    return tizulgech_commit_bytes(NULL, 0, NULL, 0, root, 36, NULL, 0, &size) == TIZULGECH_SMALL
        && tizulgech_commit_bytes(DID, REV, NULL, 0, NULL, 0, &size) == TIZULGECH_BAD
        && tizulgech_tree_apply(NODE, &end, 1, NULL, 0, root, 36, NULL, 0, NULL, 0, NULL, 0, cid, 36, NULL, 0, &size) == TIZULGECH_SMALL
        && tizulgech_tree_apply(NULL, 0, NULL, 0, NULL, 0, root, 36, NULL, 0, NULL, 0, NULL, 0, cid, 36, NULL, 0, &size) == TIZULGECH_MISSING
        && tizulgech_tree_apply(NULL, 0, NULL, 0, NULL, 0, NULL, 0, NULL, 0, NULL, 0, NULL, 0, cid, 36, NULL, 0, &size) == TIZULGECH_BAD
        && tizulgech_tree_apply(NODE, &end, 1, root, 36, root, 36, NULL, 0, NULL, 0, NULL, 0, cid, 36, NULL, 0, &size) == TIZULGECH_SMALL
        && tizulgech_tree_apply(NODE, &end, 1, root, 35, root, 36, NULL, 0, NULL, 0, NULL, 0, cid, 36, NULL, 0, &size) == TIZULGECH_BAD
        && tizulgech_tree_apply(NULL, 0, NULL, 0, root, 36, root, 36, NULL, 0, NULL, 0, NULL, 0, cid, 36, NULL, 0, &size) == TIZULGECH_BAD
        && tizulgech_cids(NULL, 0, NULL, 0, NULL, 0, &size) == TIZULGECH_DONE && size == 0
        && tizulgech_cids(NODE, &end, 1, NULL, 0, &size) == TIZULGECH_SMALL && size == 36
        && tizulgech_cids(NODE, &end, 1, cid, 36, &size) == TIZULGECH_DONE && memcmp(cid, root, 36) == 0
        && tizulgech_cids(NULL, 0, &end, 1, cid, 36, &size) == TIZULGECH_BAD
        && tizulgech_verify(NULL, 0, NULL, 0, root, 36, KEY, cid, 36) == TIZULGECH_MISSING
        && tizulgech_verify(NODE, &end, 1, root, 36, NULL, 0, cid, 36) == TIZULGECH_BAD_KEY
        && tizulgech_links(NODE, NULL, 0, &size) == TIZULGECH_DONE && size == 0 && tizulgech_links(NULL, 0, NULL, 0, &size) == TIZULGECH_BAD_NODE
        && tizulgech_below(NODE, NULL, 0, NULL, 0, NULL, 0, NULL, 0, &size) == TIZULGECH_DONE && size == 0
        && tizulgech_below(NULL, 0, NULL, 0, NULL, 0, NULL, 0, NULL, 0, &size) == TIZULGECH_BAD_NODE
        && tizulgech_verify_change(NODE, &end, 1, root, 36, root, 36, NULL, 0, NULL, 0, NULL, 0, NULL, 0, cid, 36, &size) == TIZULGECH_DONE
        && tizulgech_verify_change(NULL, 0, NULL, 0, root, 36, root, 36, NULL, 0, NULL, 0, NULL, 0, NULL, 0, cid, 36, &size) == TIZULGECH_MISSING
        && tizulgech_verify_change(NULL, 0, NULL, 0, NULL, 0, NULL, 0, NULL, 0, NULL, 0, NULL, 0, NULL, 0, cid, 36, &size) == TIZULGECH_BAD
        && tizulgech_verify_inversion(NODE, &end, 1, root, 36, root, 36, NULL, 0, NULL, 0, NULL, 0, NULL, 0, cid, 36, &size) == TIZULGECH_DONE
        && tizulgech_verify_inversion(NULL, 0, NULL, 0, root, 36, root, 36, NULL, 0, NULL, 0, NULL, 0, NULL, 0, cid, 36, &size) == TIZULGECH_MISSING
        && tizulgech_verify_inversion(NULL, 0, NULL, 0, NULL, 0, NULL, 0, NULL, 0, NULL, 0, NULL, 0, NULL, 0, cid, 36, &size) == TIZULGECH_BAD
        && tizulgech_tree_root(NULL, 0, NULL, 0, NULL, 0, cid, 36, &size) == TIZULGECH_DONE && memcmp(cid, root, 36) == 0
        && tizulgech_listing_car(NULL, 0, NULL, 0, NULL, 0, NULL, 0, NULL, 0, NULL, 0, NULL, 0, &size) == TIZULGECH_NOT_BUILT;
}

static int of_repositories(void) {
    tizulgech_repository repository = {false, NULL};
    uint8_t root[36], cid[36];
    size_t place, size;
    int well = tizulgech_open(10, &repository) == TIZULGECH_DONE && tizulgech_rev(&repository, NULL, 0, &size) == TIZULGECH_NONE
        && tizulgech_preview(&repository, NULL, 0, NULL, 0, &place, NULL, 0, &size) == TIZULGECH_EMPTY_BATCH
        && tizulgech_apply_signed(&repository, NULL, 0, NULL, 0, NULL, 0, NULL, 0, 0, NULL, 0, NULL, 0, &place, NULL, 0, &size) == TIZULGECH_BAD
        && tizulgech_stage(&repository, 0, NULL, 0, NULL, 0) == TIZULGECH_DONE
        && tizulgech_apply(&repository, NULL, 0, NULL, 0, &place, root, 36, root, 36, cid, 36) == TIZULGECH_BAD_DID
        && tizulgech_stage(&repository, 0, KEY, RECORD) == TIZULGECH_DONE && tizulgech_stage(&repository, 3, KEY, NULL, 0) == TIZULGECH_DONE
        && tizulgech_stage(&repository, 0, KEY, RECORD) == TIZULGECH_DONE
        && tizulgech_apply(&repository, DID, REV, &place, root, 36, root, 36, cid, 36) == TIZULGECH_DONE
        && tizulgech_rev(&repository, NULL, 0, &size) == TIZULGECH_SMALL
        && tizulgech_get(&repository, KEY, NULL, 0, &size) == TIZULGECH_SMALL && tizulgech_get(&repository, NULL, 0, NULL, 0, &size) == TIZULGECH_NONE
        && tizulgech_list(&repository, NULL, 0, 9, NULL, 0, &size) == TIZULGECH_SMALL && tizulgech_list(&repository, NULL, 0, 0, NULL, 0, &size) == TIZULGECH_DONE
        && tizulgech_car(&repository, NULL, 0, &size) == TIZULGECH_SMALL && tizulgech_car_part(&repository, 0, NULL, 0, &size) == TIZULGECH_DONE && size == 0
        && tizulgech_entries(&repository, NULL, 0, 9, NULL, 0, &size) == TIZULGECH_SMALL && tizulgech_car_head(&repository, NULL, 0, &size) == TIZULGECH_SMALL
        && tizulgech_car_section(&repository, NULL, 0, NULL, 0, &size) == TIZULGECH_BAD && tizulgech_car_section(&repository, cid, 36, NULL, 0, &size) == TIZULGECH_SMALL
        && tizulgech_prove_change(&repository, NULL, 0, NULL, 0, NULL, 0, NULL, 0, &size) == TIZULGECH_SMALL
        && tizulgech_prove_inversion(&repository, NULL, 0, NULL, 0, NULL, 0, NULL, 0, &place, NULL, 0, &size) == TIZULGECH_SMALL
        && tizulgech_prove(&repository, NULL, 0, NULL, 0, &size) == TIZULGECH_SMALL;
    tizulgech_close(&repository);
    return well;
}

int main(void) {
    if (!of_values()) return 1;
    if (!of_trees()) return 2;
    if (!of_pointers()) return 4;
    if (!of_commits()) return 5;
    return of_repositories() ? 0 : 3;
}
