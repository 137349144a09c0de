#include "addon.h"

NAPI_MODULE_INIT() { return set_up(env, exports); }
