/* What a thread of JavaScript is given of the addon, and what is done at its end. */
#include <stdlib.h>
#include "addon.h"

/* Were a call still at work at the end of a thread of JavaScript, what it has would stay. */
static void end(napi_env env, void *data, void *hint) {
    instance *own = data;
    (void)env, (void)hint;
    if (own->waiting) return;
    for (uint32_t i = 0; i < own->count; i++) tizulgech_close(&own->slots[i]->it), free(own->slots[i]);
    free(own->slots), free(own->free), free(own->spare.at), free(own);
}

static bool put(napi_env env, napi_value object, const call *it, napi_callback callback) {
    napi_value function;
    return napi_create_function(env, it->name, NAPI_AUTO_LENGTH, callback, (void *)it, &function) == napi_ok
        && napi_set_named_property(env, object, it->name, function) == napi_ok;
}

/* Each call at once, and in `later` on another thread; the slate; and what opens and closes a repository. */
napi_value set_up(napi_env env, napi_value exports) {
    instance *own = zeroed(sizeof *own);
    napi_value later, slate;
    if (!own) return no_memory(env), NULL;
    if (napi_set_instance_data(env, own, end, NULL) != napi_ok) return free(own), NULL;
    bool made = napi_create_object(env, &later) == napi_ok && napi_set_named_property(env, exports, "later", later) == napi_ok
        && napi_create_external_arraybuffer(env, own->slate, SLATE, NULL, NULL, &slate) == napi_ok
        && napi_set_named_property(env, exports, "slate", slate) == napi_ok && put(env, exports, &open_call, open_now)
        && put(env, exports, &open_car_call, open_now)
        && put(env, exports, &close_call, close_now);
    for (size_t i = 0; made && i < call_count; i++) made = put(env, exports, &calls[i], call_now) && put(env, later, &calls[i], call_later);
    if (!made) wrong(env, "the addon wasn't set up");
    return exports;
}
