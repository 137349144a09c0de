/* The calls, each as a function of a job. */
#include "addon.h"

#define B(i) j->arguments[i].at, j->arguments[i].len
#define L(i) B(i), j->ends + j->arguments[i].first_end, j->arguments[i].count
#define C(i) j->cids + 36 * (i), 36
#define N(i) j->numbers[i]
#define R &j->slot->it
#define PLACE &j->place
#define NUMBER &j->number
#define OUT j->room, j->room_len, &j->size

static uint32_t run_version(job *j) { return (void)j, (uint32_t)tizulgech_version(); }
static uint32_t run_open(job *j) { return tizulgech_open(N(0), R); }
static uint32_t run_open_car(job *j) { return tizulgech_open_car(N(0), B(1), R, PLACE); }
static uint32_t run_cid(job *j) { return tizulgech_cid(B(0), C(0)), 0; }
static uint32_t run_cid_text(job *j) {
    j->size = 59;
    if (j->room_len < 59) return TIZULGECH_SMALL;
    return tizulgech_cid_text(B(0), j->room, 59) ? TIZULGECH_DONE : TIZULGECH_BAD;
}

/* All writes of a batch wait: kinds, keys and records stand side by side. */
static uint32_t stage(job *j) {
    const argument *kinds = &j->arguments[3], *keys = &j->arguments[4], *records = &j->arguments[5];
    if (keys->count != kinds->len || records->count != kinds->len) return TIZULGECH_BAD;
    size_t key = 0, record = 0;
    for (size_t i = 0; i < kinds->len; i++) {
        size_t key_end = j->ends[keys->first_end + i], record_end = j->ends[records->first_end + i];
        uint8_t fault = tizulgech_stage(R, kinds->at[i], keys->at + key, key_end - key, records->at + record, record_end - record);
        if (fault) return tizulgech_clear(R), j->place = i, fault;
        key = key_end, record = record_end;
    }
    return TIZULGECH_DONE;
}

/* Those of a batch, with its stamp. None waits afterwards, whatever is answered. */
static uint32_t run_apply(job *j) {
    uint32_t fault = stage(j);
    return fault ? fault : tizulgech_apply(R, B(1), B(2), PLACE, C(0), C(1), C(2));
}
static uint32_t run_preview(job *j) {
    uint32_t fault = stage(j);
    if (fault) return fault;
    fault = tizulgech_preview(R, B(1), B(2), PLACE, OUT);
    return tizulgech_clear(R), fault;
}
static uint32_t run_apply_signed(job *j) {
    uint32_t fault = stage(j);
    if (fault) return fault;
    fault = tizulgech_apply_signed(R, B(6), B(1), B(2), B(7), N(8), B(9), B(10), PLACE, OUT);
    return tizulgech_clear(R), fault;
}

#define CALL(name, letters, ...) static uint32_t run_##name(job *j) { return tizulgech_##name(__VA_ARGS__); }
#include "calls.def"
#undef CALL

const call calls[] = {
    {"version", "", run_version}, {"cid", "b", run_cid}, {"cid_text", "bh", run_cid_text}, {"apply", "rbbbll", run_apply},
    {"preview", "rbbbllh", run_preview}, {"apply_signed", "rbbbllbbnbbh", run_apply_signed},
#define CALL(name, letters, ...) {#name, letters, run_##name},
#include "calls.def"
#undef CALL
};
const size_t call_count = sizeof calls / sizeof *calls;
const call open_call = {"open", "n", run_open}, open_car_call = {"open_car", "nb", run_open_car}, close_call = {"close", "rf", NULL};

/* Of a batch what its writes weigh in the repository. */
int64_t weight(const job *j) {
    return j->call->run == run_apply || j->call->run == run_apply_signed ? (int64_t)(700 * j->arguments[3].len + j->arguments[5].len) : 0;
}
