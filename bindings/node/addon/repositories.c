/* Repositories by their numbers: no value of JavaScript becomes a pointer. */
#include <stdlib.h>
#include "addon.h"

/* The repository with a number, or none. */
slot *slot_of(instance *own, uint64_t number) {
    uint64_t index = number & 0xfffff, turn = number >> 20;
    return index < own->count && own->slots[index]->turn == turn && own->slots[index]->is_open ? own->slots[index] : NULL;
}

static slot *new_slot(instance *own) {
    if (own->free_count) return own->slots[own->free[--own->free_count]];
    if (own->count > 0xfffff) return NULL;
    slot **slots = realloc(own->slots, (own->count + 1) * sizeof *slots);
    if (!slots) return NULL;
    own->slots = slots;
    uint32_t *places = realloc(own->free, (own->count + 1) * sizeof *places);
    if (!places) return NULL;
    own->free = places;
    slot *it = zeroed(sizeof *it);
    if (!it) return NULL;
    it->index = own->count, it->turn = 1;
    own->slots[own->count++] = it;
    return it;
}

/* Tells the collector of so many bytes more that a repository has. */
void tell(napi_env env, slot *it, int64_t more) {
    int64_t total;
    it->told += more;
    if (more) napi_adjust_external_memory(env, more, &total);
}

void close_slot(napi_env env, instance *own, slot *it) {
    tizulgech_close(&it->it);
    tell(env, it, -it->told);
    it->is_open = it->is_left = false, it->turn++;
    own->free[own->free_count++] = it->index;
}

/* The number of a new repository is written to the slate, or the place of what is faulty. */
napi_value open_now(napi_env env, napi_callback_info info) {
    job it, *j = &it;
    napi_value answer = NULL;
    if (!taken(env, info, j, true)) return give_back(j), NULL;
    j->slot = new_slot(j->own);
    if (!j->slot) j->answer = TIZULGECH_NO_MEMORY;
    else {
        j->answer = j->call->run(j);
        if (j->answer) j->own->free[j->own->free_count++] = j->slot->index;
        else {
            j->number = (uint64_t)j->slot->turn << 20 | j->slot->index;
            j->slot->is_open = true, tell(env, j->slot, 4096 + 2 * (int64_t)j->arguments[1].len);
        }
        write_fixed(j, j->own->slate);
    }
    napi_create_uint32(env, j->answer, &answer);
    give_back(j);
    return answer;
}

/* Closes one; with the flag one that a call has is closed when the call has ended. */
napi_value close_now(napi_env env, napi_callback_info info) {
    job it, *j = &it;
    napi_value answer = NULL;
    if (!taken(env, info, j, true)) return give_back(j), NULL;
    if (!j->answer) close_slot(env, j->own, j->slot);
    else if (j->answer == ANSWER_BUSY && j->numbers[1]) j->slot->is_left = true, j->answer = 0;
    napi_create_uint32(env, j->answer, &answer);
    give_back(j);
    return answer;
}
