/* Reads the arguments of a call. */
#include <stdlib.h>
#include <string.h>
#include "addon.h"

enum { KEPT = 1 << 20 };

bool wrong(napi_env env, const char *what) {
    bool pending = false;
    if (napi_is_exception_pending(env, &pending) == napi_ok && !pending) napi_throw_type_error(env, "ERR_INVALID_ARG_TYPE", what);
    return false;
}
static bool out_of_range(napi_env env, const char *what) { return napi_throw_range_error(env, "ERR_OUT_OF_RANGE", what), false; }
bool no_memory(napi_env env) { return napi_throw_error(env, "NO_MEMORY", "out of memory"), false; }

void *zeroed(size_t size) {
    void *it = malloc(size);
    return it ? memset(it, 0, size) : NULL;
}

/* Room for so many bytes more. */
static bool has_room(bytes *it, size_t more) {
    if (it->cap - it->len >= more) return true;
    size_t cap = it->cap + it->cap / 2;
    if (cap < it->len + more) cap = it->len + more;
    if (cap < 4096) cap = 4096;
    uint8_t *at = realloc(it->at, cap);
    if (!at) return false;
    it->at = at, it->cap = cap;
    return true;
}

/* Copies of a call at once go to the room that the call before left; one that is called from a getter finds none there. */
void give_back(job *j) {
    if (j->own && !j->own->spare.at && j->copies.cap <= KEPT) {
        j->own->spare = j->copies;
        j->own->spare.len = 0;
    } else free(j->copies.at);
    free(j->ends);
}

/* ---- bytes: lent where they may be, else copied, and then `at` is null */

static bool take_array(napi_env env, job *j, napi_value value, bool lend, const uint8_t **at, size_t *len) {
    napi_typedarray_type type;
    napi_value buffer;
    void *data = NULL;
    bool is_own = false;
    if (napi_get_typedarray_info(env, value, &type, len, &data, &buffer, NULL) != napi_ok || type != napi_uint8_array)
        return wrong(env, "bytes are a Uint8Array or a string");
    if (!data) *len = 0;
    if (lend && napi_is_arraybuffer(env, buffer, &is_own) == napi_ok && is_own) return *at = data, true;
    if (!has_room(&j->copies, *len)) return no_memory(env);
    if (*len) memcpy(j->copies.at + j->copies.len, data, *len);
    j->copies.len += *len, *at = NULL;
    return true;
}

/* Whether a string has no half of a surrogate pair alone, which V8 writes as U+FFFD: so two keys would be one. Below 0: no memory. */
static int is_well_formed(napi_env env, napi_value value) {
    size_t len;
    if (napi_get_value_string_utf16(env, value, NULL, 0, &len) != napi_ok) return 0;
    char16_t *units = malloc((len + 1) * sizeof *units);
    if (!units) return -1;
    int answer = napi_get_value_string_utf16(env, value, units, len + 1, &len) == napi_ok;
    for (size_t i = 0; answer && i < len; i++) {
        if ((units[i] & 0xf800) != 0xd800) continue;
        answer = units[i] < 0xdc00 && i + 1 < len && (units[i + 1] & 0xfc00) == 0xdc00;
        i++;
    }
    free(units);
    return answer;
}

static bool has_replacement(const uint8_t *text, size_t len) {
    for (size_t i = 0; i + 2 < len; i++)
        if (text[i] == 0xef && text[i + 1] == 0xbf && text[i + 2] == 0xbd) return true;
    return false;
}

static bool take_text(napi_env env, job *j, napi_value value, const uint8_t **at, size_t *len) {
    napi_valuetype type;
    if (napi_typeof(env, value, &type) != napi_ok || type != napi_string) return wrong(env, "bytes are a Uint8Array or a string");
    size_t wanted = 64, written;
    for (;;) {
        if (!has_room(&j->copies, wanted)) return no_memory(env);
        size_t room = j->copies.cap - j->copies.len;
        if (napi_get_value_string_utf8(env, value, (char *)j->copies.at + j->copies.len, room, &written) != napi_ok) return wrong(env, "a string");
        /* Where four bytes are left over it was the whole string. */
        if (room - written > 4) break;
        if (napi_get_value_string_utf8(env, value, NULL, 0, &wanted) != napi_ok) return wrong(env, "a string");
        wanted += 8;
    }
    if (has_replacement(j->copies.at + j->copies.len, written)) {
        int answer = is_well_formed(env, value);
        if (answer < 0) return no_memory(env);
        if (!answer) return wrong(env, "a string with half of a surrogate pair has no UTF-8");
    }
    j->copies.len += written, *len = written, *at = NULL;
    return true;
}

static bool take_bytes(napi_env env, job *j, napi_value value, bool lend, const uint8_t **at, size_t *len) {
    bool is = false;
    if (napi_is_typedarray(env, value, &is) == napi_ok && is) return take_array(env, j, value, lend, at, len);
    return take_text(env, j, value, at, len);
}

/* ---- lists, which are always copied */

static bool add_end(napi_env env, job *j, size_t end) {
    if (j->ends_len == j->ends_cap) {
        size_t cap = j->ends_cap ? 2 * j->ends_cap : 64, *ends = realloc(j->ends, cap * sizeof *ends);
        if (!ends) return no_memory(env);
        j->ends = ends, j->ends_cap = cap;
    }
    j->ends[j->ends_len++] = end;
    return true;
}

/* A list in one Uint8Array: how many there are, the length of each, four bytes each, and then all bytes. */
static bool take_packed(napi_env env, job *j, napi_value value, argument *to) {
    size_t start = j->copies.len, len, end = 0;
    const uint8_t *at;
    uint32_t count, each;
    if (!take_array(env, j, value, false, &at, &len)) return false;
    at = j->copies.at + start;
    if (len < 4 || (memcpy(&count, at, 4), (len - 4) / 4 < count)) return wrong(env, "a list is an array");
    to->start = start + 4 + 4 * (size_t)count, to->first_end = j->ends_len, to->count = count;
    for (size_t i = 0; i < count; i++) {
        memcpy(&each, at + 4 + 4 * i, 4);
        end += each;
        if (!add_end(env, j, end)) return false;
    }
    to->len = end;
    return end == len - 4 - 4 * (size_t)count || wrong(env, "a list is an array");
}

static bool take_element(napi_env env, job *j, napi_value array, uint32_t i) {
    napi_handle_scope scope = NULL;
    napi_value element;
    const uint8_t *at;
    size_t len;
    if (napi_open_handle_scope(env, &scope) != napi_ok) return wrong(env, "no scope");
    bool is_taken = napi_get_element(env, array, i, &element) == napi_ok ? take_bytes(env, j, element, false, &at, &len) : wrong(env, "an array's element");
    napi_close_handle_scope(env, scope);
    return is_taken;
}

static bool take_list(napi_env env, job *j, napi_value value, argument *to) {
    bool is = false;
    uint32_t count;
    to->is_copied = true;
    if (napi_is_typedarray(env, value, &is) == napi_ok && is) return take_packed(env, j, value, to);
    if (napi_is_array(env, value, &is) != napi_ok || !is || napi_get_array_length(env, value, &count) != napi_ok) return wrong(env, "a list is an array");
    to->start = j->copies.len, to->first_end = j->ends_len, to->count = count;
    for (uint32_t i = 0; i < count; i++)
        if (!take_element(env, j, value, i) || !add_end(env, j, j->copies.len - to->start)) return false;
    to->len = j->copies.len - to->start;
    return true;
}

/* ---- numbers */

static bool take_number(napi_env env, napi_value value, uint64_t *to) {
    napi_valuetype type;
    double number;
    bool lossless = false;
    if (napi_typeof(env, value, &type) != napi_ok) return wrong(env, "a count is a number or a BigInt");
    if (type == napi_bigint)
        return napi_get_value_bigint_uint64(env, value, to, &lossless) == napi_ok && lossless ? true : out_of_range(env, "a count has 64 bits without sign");
    if (type != napi_number || napi_get_value_double(env, value, &number) != napi_ok) return wrong(env, "a count is a number or a BigInt");
    if (!(number >= 0 && number <= 9007199254740991.0) || number != (double)(uint64_t)number) return out_of_range(env, "a count is a safe integer, not below 0");
    *to = (uint64_t)number;
    return true;
}

static bool take_room(napi_env env, job *j, napi_value value) {
    uint64_t room;
    if (!take_number(env, value, &room)) return false;
    if (room > (uint64_t)1 << 40) return out_of_range(env, "so much room isn't had");
    j->room_len = room, j->has_out = true;
    return true;
}

static bool take_repository(napi_env env, job *j, napi_value value) {
    uint64_t number;
    if (!take_number(env, value, &number)) return false;
    j->slot = slot_of(j->own, number);
    if (!j->slot) j->answer = TIZULGECH_CLOSED;
    else if (j->slot->is_busy) j->answer = ANSWER_BUSY;
    return true;
}

/* ---- all of a call */

/* Reads an argument that is no list. */
static bool take(napi_env env, job *j, size_t i, napi_value value, bool lend) {
    argument *it = &j->arguments[i];
    bool flag;
    switch (j->call->letters[i]) {
    case 'b':
        it->start = j->copies.len;
        if (!take_bytes(env, j, value, lend, &it->at, &it->len)) return false;
        it->is_copied = j->copies.len != it->start || !lend;
        return true;
    case 'n': return take_number(env, value, &j->numbers[i]);
    case 'k': return take_number(env, value, &j->numbers[i]) && (j->numbers[i] < 256 || out_of_range(env, "a kind is below 256"));
    case 'f':
        if (napi_get_value_bool(env, value, &flag) != napi_ok) return wrong(env, "a flag is true or false");
        j->numbers[i] = flag;
        return true;
    case 'h': return take_room(env, j, value);
    case 'r': return take_repository(env, j, value);
    default: return true;
    }
}

bool taken(napi_env env, napi_callback_info info, job *j, bool lend) {
    napi_value values[ARGUMENTS];
    size_t count = ARGUMENTS;
    void *data;
    memset(j, 0, sizeof *j);
    if (napi_get_cb_info(env, info, &count, values, NULL, &data) != napi_ok || napi_get_instance_data(env, (void **)&j->own) != napi_ok) return wrong(env, "no call");
    j->call = data;
    if (lend) j->copies = j->own->spare, j->own->spare = (bytes){0};
    const char *letters = j->call->letters;
    size_t wanted = strlen(letters);
    if (count != wanted) return wrong(env, "another number of arguments");
    for (size_t i = 0; i < wanted; i++)
        if (letters[i] == 'l' && !take_list(env, j, values[i], &j->arguments[i])) return false;
    /* No code of the caller runs from here on. */
    for (size_t i = 0; i < wanted; i++)
        if (!take(env, j, i, values[i], lend)) return false;
    for (size_t i = 0; i < wanted; i++) {
        argument *it = &j->arguments[i];
        if (it->is_copied) it->at = j->copies.at + it->start;
    }
    return true;
}
