/* The addon, between index.js and tizulgech.h: what its files share.
 *
 * A call is described by letters, one for each argument: r a repository's number, b bytes (a Uint8Array, or a string as UTF-8), l a list of
 * bytes (an array, or all in one Uint8Array: V8 gives a small array of bytes memory of its own when C asks for it, which costs more than to
 * copy it), n a count (a safe integer or a BigInt), k a count below 256, f a flag, and last h the room that an answer is first given, 0 for
 * all of the slate. No argument is trusted: what isn't as its letter says throws a TypeError or a RangeError, and a repository's number that
 * isn't, or isn't any more, answers CLOSED.
 *
 * Bytes of a call at once are lent, not copied: lists are read first, as only they can run code of the caller (getters of an array), and
 * from then on nothing but the call itself runs. Bytes that another thread may change, those of a SharedArrayBuffer, are copied, and so are
 * all bytes of a call on another thread.
 *
 * What a call answers stands in the slate, which is read before anything else runs: three CIDs, two numbers, and the answer of variable
 * length. A call on another thread has these in a buffer of its own. */
#define NAPI_VERSION 8
#include <node_api.h>
#include <stdbool.h>
#include <stdint.h>
#include "tizulgech.h"

enum { ARGUMENTS = 12, CIDS = 108, NUMBERS = 112, FIXED = 128, SLATE = 65536, ANSWER_BUSY = 256 };

/* A repository, and who has it. Its place is kept for the next one; the number that JavaScript has counts those that were in it. */
typedef struct {
    tizulgech_repository it;
    bool is_open, is_busy, is_left; /* what `it` says of itself isn't read while a call has it */
    uint32_t index, turn;
    int64_t told; /* bytes that the collector was told of */
} slot;

typedef struct {
    uint8_t *at;
    size_t len, cap;
} bytes;

/* What one thread of JavaScript has. */
typedef struct {
    slot **slots;
    uint32_t count, *free, free_count;
    bytes spare; /* for what is copied, from call to call */
    size_t waiting;
    uint8_t slate[SLATE];
} instance;

/* Bytes, or a list of `count` parts whose ends begin at `first_end` of the job's. */
typedef struct {
    const uint8_t *at;
    size_t len, start, first_end, count;
    bool is_copied;
} argument;

typedef struct job {
    const struct call *call;
    instance *own;
    slot *slot;
    argument arguments[ARGUMENTS];
    uint64_t numbers[ARGUMENTS];
    bytes copies;
    size_t *ends, ends_len, ends_cap;
    uint8_t cids[CIDS];
    size_t place;
    uint64_t number;
    bool has_out;
    uint8_t *room;
    size_t room_len, size;
    uint32_t answer;
    napi_deferred deferred;
    napi_async_work work;
} job;

typedef struct call {
    const char *name, *letters;
    uint32_t (*run)(job *);
} call;

/* calls.c */
extern const call calls[], open_call, open_car_call, close_call;
extern const size_t call_count;
int64_t weight(const job *); /* what a call that was made adds to a repository, about */

/* arguments.c */
bool wrong(napi_env, const char *what);
bool no_memory(napi_env);
void *zeroed(size_t);
bool taken(napi_env, napi_callback_info, job *, bool lend); /* false where an argument is wrong, and an error is thrown */
void give_back(job *);

/* repositories.c */
slot *slot_of(instance *, uint64_t number);
void close_slot(napi_env, instance *, slot *);
void tell(napi_env, slot *, int64_t more);
napi_value open_now(napi_env, napi_callback_info);
napi_value close_now(napi_env, napi_callback_info);

/* answers.c */
void write_fixed(const job *, uint8_t *to);
napi_value call_now(napi_env, napi_callback_info);
napi_value call_later(napi_env, napi_callback_info);

/* setup.c */
napi_value set_up(napi_env, napi_value exports);
