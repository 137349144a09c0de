/* Each call of the library once, over a repository of three records in which one write waits, and an empty one: what the tests of the
 * heap go through. */
#include "tizulgech.h"
#include <stdio.h>
#include <string.h>
#define TEXT(s) (const uint8_t *)(s), strlen(s)

static tizulgech_repository repository, empty;
static uint8_t root[36], cid[36], out[8192], node[4096], proof[4096], file[8192];
static size_t node_end, place, size, file_end;
/* The message of a batch on the first one, made on a third repository that is let go. */
static uint8_t message[4096];
static size_t message_end;
static const size_t key_ends[] = {7, 14}, record_ends[] = {1, 2};

static size_t put(uint8_t *to, const void *from, size_t count) {
    memcpy(to, from, count);
    return count;
}
/* The file of the first repository with a signature, of no bytes, in its commit, whose section has a length of two bytes. */
static int is_file_made(void) {
    uint8_t commit[160] = {0xa6}, *car = out;
    if (tizulgech_car(&repository, out, sizeof out, &size)) return 0;
    const uint8_t *unsigned_commit = car + 59 + 2 + 36, *behind = unsigned_commit + (car[59] & 127) + 128 * car[60] - 36;
    const size_t fields = 1 + 4 + 12 + 4 + 14;
    size_t end = 1 + put(commit + 1, unsigned_commit + 1, fields - 1);
    end += put(commit + end, "\x63sig\x40", 5);
    end += put(commit + end, unsigned_commit + fields, (size_t)(behind - unsigned_commit) - fields);
    tizulgech_cid(commit, end, cid, 36);
    file_end = put(file, car, 59);
    memcpy(file + 14, cid, 36);
    file[file_end++] = (uint8_t)(128 | (36 + end)), file[file_end++] = (uint8_t)((36 + end) / 128);
    file_end += put(file + file_end, cid, 36);
    file_end += put(file + file_end, commit, end);
    file_end += put(file + file_end, behind, (size_t)(car + size - behind));
    return tizulgech_check_car(file, file_end, &place, out, sizeof out, &size) == TIZULGECH_DONE;
}
/* A repository of three records. */
static int is_filled(tizulgech_repository *it) {
    static const char *keys[] = {"a.b.c/d", "a.b.c/e", "a.b.c/f"};
    if (tizulgech_open(100, it)) return 0;
    for (int i = 0; i < 3; i++)
        if (tizulgech_stage(it, 0, TEXT(keys[i]), TEXT("\xa1\x61k\x01"))) return 0;
    return tizulgech_apply(it, TEXT("did:web:a.b"), TEXT("3jzfcijpj2z2a"), &place, root, 36, cid, 36, cid, 36) == TIZULGECH_DONE;
}
static int is_told(void) {
    tizulgech_repository third = {0};
    int is_done = is_filled(&third) && !tizulgech_stage(&third, 3, TEXT("a.b.c/d"), NULL, 0)
        && !tizulgech_apply_signed(&third, root, 36, TEXT("did:web:a.b"), TEXT("3jzfcijpj2z2b"), TEXT("sig"), 7, TEXT("2026-11-30T12:00:00Z"), NULL, 0, &place,
                                   message, sizeof message, &message_end);
    tizulgech_close(&third);
    return is_done;
}

/* The repositories, the node of the first one's tree, and the message. */
static int is_begun(void) {
    if (!is_told() || !is_filled(&repository) || tizulgech_open(1, &empty)) return 0;
    if (tizulgech_prove(&repository, TEXT("a.b.c/d"), proof, sizeof proof, &size)) return 0;
    node_end = size - 8;
    memcpy(node, proof + 8, node_end);
    if (!is_file_made()) return 0;
    return tizulgech_stage(&repository, 0, TEXT("a.b.c/g"), TEXT("\xa0")) == TIZULGECH_DONE;
}
static void end(void) {
    tizulgech_close(&repository);
    tizulgech_close(&empty);
}

static int of_record(void) { return tizulgech_record_fault(TEXT("\xa1\x61k\x81\xa1\x61k\x01")); }
static int of_write(void) { return tizulgech_write_fault(2, true, TEXT("a.b.c/d"), TEXT("\xa1\x61k\x81\xa1\x61k\x01")); }
static int of_below(void) {
    static const uint8_t values[72];
    return tizulgech_below(node, node_end, TEXT("a.b.c/da.b.c/z"), key_ends, 2, values, 72, out, sizeof out, &size);
}
static int of_links(void) { return tizulgech_links(node, node_end, out, sizeof out, &size); }
static int of_commit_bytes(void) { return tizulgech_commit_bytes(TEXT("did:web:a.b"), TEXT("3jzfcijpj2z2b"), root, 36, out, sizeof out, &size); }
static int of_tree(void) {
    static const uint8_t values[72];
    return tizulgech_tree_apply(node, node_end, &node_end, 1, NULL, 0, root, 36, TEXT("a.b.c/da.b.c/z"), key_ends, 2, values, 72, cid, 36, out, sizeof out, &size);
}
static int of_known(void) {
    static const uint8_t values[72];
    return tizulgech_tree_apply(node, node_end, &node_end, 1, root, 36, root, 36, TEXT("a.b.c/da.b.c/z"), key_ends, 2, values, 72, cid, 36, out, sizeof out, &size);
}
static int of_cids(void) {
    int number = tizulgech_cids(TEXT("a.b.c/da.b.c/z"), key_ends, 2, out, sizeof out, &size);
    return number ? number : size != 72;
}
static int of_verify(void) { return tizulgech_verify(node, node_end, &node_end, 1, root, 36, TEXT("a.b.c/d"), cid, 36); }
/* The tree without the key is another one than that of no bytes, so both verdicts are told as far as they go. */
static int of_change(void) {
    static const uint8_t none[36];
    uint8_t had[36], other[36];
    size_t end = 7;
    tizulgech_cid(TEXT("\xa1\x61k\x01"), had, 36);
    tizulgech_cid(TEXT(""), other, 36);
    int number = tizulgech_verify_change(node, node_end, &node_end, 1, root, 36, other, 36, TEXT("a.b.c/d"), &end, 1, had, 36, none, 36, cid, 36, &place);
    return number == TIZULGECH_OTHER_ROOT ? 0 : number;
}
static int of_inversion(void) {
    static const uint8_t none[36];
    uint8_t has[36], other[36];
    size_t end = 7;
    tizulgech_cid(TEXT("\xa1\x61k\x01"), has, 36);
    tizulgech_cid(TEXT(""), other, 36);
    int number = tizulgech_verify_inversion(node, node_end, &node_end, 1, other, 36, root, 36, TEXT("a.b.c/d"), &end, 1, none, 36, has, 36, cid, 36, &place);
    return number == TIZULGECH_OTHER_ROOT ? 0 : number;
}
static int of_root_of_tree(void) {
    uint8_t cids[72];
    memcpy(cids, root, 36), memcpy(cids + 36, root, 36);
    return tizulgech_tree_root(TEXT("a.b.c/da.b.c/z"), key_ends, 2, cids, 72, cid, 36, &size);
}
static int of_listing(void) {
    return tizulgech_listing_car(TEXT("did:web:a.b"), TEXT("3jzfcijpj2z2b"), TEXT("a.b.c/da.b.c/z"), key_ends, 2, TEXT("\xa0\xa0"), record_ends, 2, out, sizeof out, &size);
}
static int of_open(void) {
    tizulgech_repository other = {0};
    int number = tizulgech_open(10, &other);
    if (other.is_open != (number == 0)) return 1;
    tizulgech_close(&other);
    return number;
}
static int of_stage(void) {
    int number = tizulgech_stage(&empty, 1, TEXT("a.b.c/h"), TEXT("\xa0"));
    return tizulgech_clear(&empty) ? 1 : number;
}
static int of_list(void) { return tizulgech_list(&repository, NULL, 0, 9, out, sizeof out, &size); }
static int of_entries(void) { return tizulgech_entries(&repository, NULL, 0, 9, out, 60, &size); }
static int of_car(void) { return tizulgech_car(&repository, out, sizeof out, &size); }
static int of_length(void) { return tizulgech_car_length(&repository, &(uint64_t){0}); }
static int of_part(void) { return tizulgech_car_part(&repository, 9, out, 99, &size); }
static int of_head(void) { return tizulgech_car_head(&repository, out, sizeof out, &size); }
static int of_section(void) { return tizulgech_car_section(&repository, root, 36, out, sizeof out, &size); }
static int of_prove_change(void) {
    static const uint8_t none[36];
    size_t end = 7;
    return tizulgech_prove_change(&repository, TEXT("a.b.c/d"), &end, 1, none, 36, out, sizeof out, &size);
}
static int of_prove_inversion(void) {
    static const uint8_t before[36];
    uint8_t after[36];
    size_t end = 7;
    tizulgech_cid(TEXT("\xa1\x61k\x01"), after, 36);
    return tizulgech_prove_inversion(&repository, TEXT("a.b.c/d"), &end, 1, before, 36, after, 36, &place, out, sizeof out, &size);
}
#define STAMP TEXT("did:web:a.b"), TEXT("3jzfcijpj2z2b")
static int of_signed(void) { return tizulgech_signed_commit(STAMP, root, 36, TEXT("sig"), out, sizeof out, &size); }
static int of_read(void) {
    uint8_t commit[256];
    int number = tizulgech_signed_commit(STAMP, root, 36, TEXT("sig"), commit, sizeof commit, &size);
    return number ? number : tizulgech_read_commit(commit, size, out, sizeof out, &size);
}
static int of_file_head(void) { return tizulgech_file_head(root, 36, out, sizeof out, &size); }
static int of_file_section(void) { return tizulgech_file_section(root, 36, node, node_end, out, sizeof out, &size); }
static int of_preview(void) { return tizulgech_preview(&repository, STAMP, &place, out, sizeof out, &size); }
/* The room is too small, so that the message is made, and the batch isn't accepted. */
static int of_apply_signed(void) {
    int number = tizulgech_apply_signed(&repository, root, 36, STAMP, TEXT("sig"), 7, TEXT("2026-11-30T12:00:00Z"), NULL, 0, &place, out, 9, &size);
    return number == TIZULGECH_SMALL ? 0 : number;
}
static int of_check(void) { return tizulgech_check_commit(root, 36, message, message_end, &place, cid, 36, out, sizeof out, &size); }

static int of_prove(void) { return tizulgech_prove(&repository, TEXT("a.b.c/d"), out, sizeof out, &size); }

static int of_node_entries(void) { return tizulgech_node_entries(node, node_end, out, sizeof out, &size); }
static int of_tree_prove_change(void) {
    static const uint8_t values[72];
    return tizulgech_tree_prove_change(node, node_end, &node_end, 1, NULL, 0, root, 36, TEXT("a.b.c/da.b.c/z"), key_ends, 2, values, 72, cid, 36, out, sizeof out, &size);
}
/* The empty tree's node stands behind the other one. */
static int of_two_trees(uint8_t (*call)(const uint8_t *, size_t, const size_t *, size_t, const uint8_t *, size_t, const uint8_t *, size_t, const uint8_t *, size_t, uint8_t *, size_t, uint8_t *, size_t, size_t *)) {
    size_t ends[2] = {node_end, node_end + 7};
    uint8_t none[36], bad[36];
    memcpy(node + node_end, "\xa2\x61\x65\x80\x61\x6c\xf6", 7);
    tizulgech_cid(node + node_end, 7, none, 36);
    return call(node, ends[1], ends, 2, root, 0, none, 36, root, 36, bad, 36, out, sizeof out, &size);
}
static int of_difference(void) { return of_two_trees(tizulgech_difference); }
static int of_missing(void) { return of_two_trees(tizulgech_missing); }
static int of_record_json(void) { return tizulgech_record_json(TEXT("\xa1\x61k\x81\xa1\x61k\x01"), out, sizeof out, &size); }
static int of_json_record(void) { return tizulgech_json_record(TEXT("{\"k\": [{\"k\": 1}]}"), out, sizeof out, &size); }
static int of_faulty_json(void) {
    int number = tizulgech_json_record(TEXT("{\"k\": [{\"k\": 1.5}]}"), out, sizeof out, &size);
    return number == TIZULGECH_JSON_FLOAT ? size != 7 || memcmp(out, ".k[0].k", 7) : number;
}
static int of_link_text(void) { return tizulgech_link_text(root, 36, out, sizeof out, &size); }
static int of_link_from_text(void) {
    uint8_t text[59];
    tizulgech_cid_text(root, 36, text, 59);
    return tizulgech_link_from_text(text, 59, out, sizeof out, &size);
}
static int of_check_car(void) { return tizulgech_check_car(file, file_end, &place, out, sizeof out, &size); }
static int of_open_car(void) {
    tizulgech_repository other = {0};
    int number = tizulgech_open_car(3, file, file_end, &other, &place);
    if (other.is_open != (number == 0) || (!number && (tizulgech_root(&other, cid, 36) || memcmp(cid, root, 36)))) return 1;
    tizulgech_close(&other);
    return number;
}

/* These take no memory. */
static int of_values(void) {
    static uint8_t text[59];
    tizulgech_cid(node, node_end, cid, 36);
    return tizulgech_version() != TIZULGECH_VERSION || memcmp(cid, root, 36) || !tizulgech_cid_text(root, 36, text, 59) || tizulgech_cid_from_text(text, 59, cid, 36)
        || tizulgech_layer(TEXT("blue")) != 1 || !tizulgech_is_key(TEXT("blue")) || tizulgech_is_repository_key(TEXT("blue"))
        || !tizulgech_is_did(TEXT("did:web:a.b")) || tizulgech_is_tid(TEXT("1"))
        || tizulgech_step(node, node_end, TEXT("a.b.c/e"), cid, 36)
        || tizulgech_next_tid(NULL, 0, 1, 1, out, sizeof out, &size) || size != 13
        || tizulgech_stamp_fault(NULL, 0, TEXT("did:web:a.b"), TEXT("1")) != TIZULGECH_BAD_REV;
}
static int of_reading(void) {
    uint64_t number = 0;
    return tizulgech_get(&repository, TEXT("a.b.c/d"), out, sizeof out, &size) || tizulgech_root(&repository, cid, 36) || memcmp(cid, root, 36)
        || tizulgech_commit(&repository, cid, 36) || tizulgech_number(&repository, &number) || number != 3
        || tizulgech_rev(&repository, out, sizeof out, &size) || size != 13;
}

/* The calls, how many of the library's calls each is, and whether it takes memory. */
static const struct {
    const char *name;
    int (*call)(void);
    int count, takes_memory;
} calls[] = {
    {"record_fault", of_record, 1, 1}, {"commit_bytes", of_commit_bytes, 1, 1}, {"tree_apply", of_tree, 1, 1}, {"tree_apply of known nodes", of_known, 1, 1}, {"cids", of_cids, 1, 1}, {"verify", of_verify, 1, 1},
    {"write_fault", of_write, 1, 1}, {"below", of_below, 1, 1}, {"links", of_links, 1, 1}, {"verify_change", of_change, 3, 1}, {"verify_inversion", of_inversion, 3, 1}, {"tree_root", of_root_of_tree, 1, 1}, {"listing_car", of_listing, 1, 1}, {"open", of_open, 2, 1}, {"stage", of_stage, 2, 1},
    {"list", of_list, 1, 1}, {"car", of_car, 1, 1}, {"car_length", of_length, 1, 1}, {"car_part", of_part, 1, 1}, {"prove", of_prove, 1, 1},
    {"entries", of_entries, 1, 1}, {"car_head", of_head, 1, 1}, {"car_section", of_section, 1, 1}, {"prove_change", of_prove_change, 1, 1}, {"prove_inversion", of_prove_inversion, 2, 1},
    {"signed_commit", of_signed, 1, 1}, {"read_commit", of_read, 2, 1}, {"file_head", of_file_head, 1, 1}, {"file_section", of_file_section, 1, 1},
    {"preview", of_preview, 1, 1}, {"apply_signed", of_apply_signed, 1, 1}, {"check_commit", of_check, 1, 1},
    {"node_entries", of_node_entries, 1, 1}, {"tree_prove_change", of_tree_prove_change, 1, 1}, {"difference", of_difference, 2, 1}, {"missing", of_missing, 2, 1},
    {"record_json", of_record_json, 1, 1}, {"json_record", of_json_record, 1, 1}, {"json_record of a fault", of_faulty_json, 1, 1},
    {"link_text", of_link_text, 1, 1}, {"link_from_text", of_link_from_text, 2, 1}, {"check_car", of_check_car, 1, 1}, {"open_car", of_open_car, 3, 1},
    {"those of values", of_values, 12, 0}, {"those of reading", of_reading, 5, 0},
};
enum { CALLS = sizeof calls / sizeof *calls };
