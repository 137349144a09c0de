/* An account: its first commit, over no records; a batch that is told, signed and accepted; the message that tells of it, and who takes that; and
 * a change of its key. The signatures are made up: nothing here tests one.
 * cc -Itarget/library bindings/c/account.c target/library/libtizulgech.a */
#include "tizulgech.h"
#include <stdio.h>
#include <string.h>
#define TEXT(s) (const uint8_t *)(s), strlen(s)
#define DID TEXT("did:web:example.com")

static const uint8_t *empty_node = (const uint8_t *)"\xa2\x61\x65\x80\x61\x6c\xf6";
static uint8_t file[8192], commit[512], said[8192], message[8192];
static size_t file_end, commit_end, said_end, message_end;

/* Signs a commit over a root, which is one block of its file, or of a message. */
static int sign(const char *rev, const uint8_t *root, const char *sig) {
    uint8_t unsigned_bytes[512];
    size_t size;
    /* what the owner's key signs */
    if (tizulgech_commit_bytes(DID, TEXT(rev), root, 36, unsigned_bytes, sizeof unsigned_bytes, &size)) return 0;
    if (tizulgech_signed_commit(DID, TEXT(rev), root, 36, TEXT(sig), commit, sizeof commit, &commit_end)) return 0;
    /* whoever reads the commit has these bytes and the signature at the end */
    if (tizulgech_read_commit(commit, commit_end, said, sizeof said, &said_end)) return 0;
    return said_end > size && memcmp(said + said_end - size, unsigned_bytes, size) == 0;
}

/* Puts the section of a block at the end of the file. */
static int put(const uint8_t *block, size_t length) {
    uint8_t cid[36];
    size_t size;
    tizulgech_cid(block, length, cid, 36);
    if (tizulgech_file_section(cid, 36, block, length, file + file_end, sizeof file - file_end, &size)) return 0;
    file_end += size;
    return 1;
}

int main(void) {
    uint8_t root[36], top[36], before[36], after[36], missing[36];
    size_t place, size;
    /* an account without records, and its file: the commit and the empty node */
    tizulgech_cid(empty_node, 7, root, 36);
    if (!sign("3jzfcijpj2z2a", root, "first")) return 1;
    tizulgech_cid(commit, commit_end, top, 36);
    if (tizulgech_file_head(top, 36, file, sizeof file, &file_end) || !put(commit, commit_end) || !put(empty_node, 7)) return 2;
    printf("an empty account of %zu bytes\n", file_end);
    /* a change of its key is a commit over the same root, under the next revision */
    if (!sign("3jzfcijpj2z2b", root, "other")) return 3;

    /* a batch: told, signed over the root before and the one after, and accepted */
    tizulgech_repository repo = {0};
    if (tizulgech_open(100, &repo) || tizulgech_rev(&repo, said, sizeof said, &size) != TIZULGECH_NONE) return 4;
    if (tizulgech_stage(&repo, 1, TEXT("app.bsky.feed.post/3jzfcijpj2z2c"), TEXT("\xa1\x64text\x65hello"))) return 5;
    if (tizulgech_preview(&repo, DID, TEXT("3jzfcijpj2z2c"), &place, said, sizeof said, &said_end)) return 6;
    memcpy(before, said, 36), memcpy(after, said + 36, 36);
    if (memcmp(before, root, 36) || !sign("3jzfcijpj2z2c", after, "signed")) return 7;
    /* no room: nothing has happened, and the write still waits */
    if (tizulgech_apply_signed(&repo, before, 36, DID, TEXT("3jzfcijpj2z2c"), TEXT("signed"), 1, TEXT("2026-11-30T12:00:00Z"), NULL, 0, &place, NULL, 0, &size)
        != TIZULGECH_SMALL) return 8;
    if (tizulgech_apply_signed(&repo, before, 36, DID, TEXT("3jzfcijpj2z2c"), TEXT("signed"), 1, TEXT("2026-11-30T12:00:00Z"), NULL, 0, &place, message,
                               sizeof message, &message_end) || size != message_end) return 9;
    tizulgech_root(&repo, root, 36);
    if (memcmp(root, after, 36) || tizulgech_rev(&repo, said, sizeof said, &size) || size != 13 || memcmp(said, "3jzfcijpj2z2c", 13)) return 10;

    /* who knows the root before takes the message: its commit comes first, and so the DID and the revision */
    if (tizulgech_check_commit(before, 36, message, message_end, &place, missing, 36, said, sizeof said, &said_end)) return 11;
    if (memcmp(said + 8, "did:web:example.com", 19) || memcmp(said + 35, "3jzfcijpj2z2c", 13) || memcmp(said + 48, root, 36)) return 12;
    /* it isn't true of another root, nor with a byte changed */
    if (tizulgech_check_commit(root, 36, message, message_end, &place, missing, 36, said, sizeof said, &size) != TIZULGECH_OTHER_PREVIOUS) return 13;
    message[message_end / 2] ^= 1;
    if (tizulgech_check_commit(before, 36, message, message_end, &place, missing, 36, said, sizeof said, &size) == TIZULGECH_DONE) return 14;
    tizulgech_close(&repo);
    return 0;
}
