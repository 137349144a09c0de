/* The addon over the heap of ../../c/heap.h, and a call more: refuse(n) refuses the request for memory after n others, none where n is below 0,
 * and answers how many were made since it was called last, and how many pieces are held. */
#include "addon.h"
#include "../../c/heap.h"

static napi_value refuse(napi_env env, napi_callback_info info) {
    napi_value given, array, part;
    size_t count = 1;
    int64_t left;
    if (napi_get_cb_info(env, info, &count, &given, NULL, NULL) != napi_ok || napi_get_value_int64(env, given, &left) != napi_ok) return NULL;
    long told[] = {heap_asked, heap_pieces};
    heap_asked = 0, heap_left = left;
    if (napi_create_array_with_length(env, 2, &array) != napi_ok) return NULL;
    for (uint32_t i = 0; i < 2; i++)
        if (napi_create_int64(env, told[i], &part) != napi_ok || napi_set_element(env, array, i, part) != napi_ok) return NULL;
    return array;
}

NAPI_MODULE_INIT() {
    napi_value function;
    if (!set_up(env, exports) || napi_create_function(env, "refuse", NAPI_AUTO_LENGTH, refuse, NULL, &function) != napi_ok) return NULL;
    return napi_set_named_property(env, exports, "refuse", function) == napi_ok ? exports : NULL;
}
