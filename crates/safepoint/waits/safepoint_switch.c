/* From one stack to another, in one thread of the host. */
#undef SP_CHECK
#include "safepoint_wait.h"

int64_t sp_switch(struct sp_party *from, struct sp_party *to, sp_callback call, void *with) {
    int64_t state = sp_state(to), entered;
    if (state < 0) return state;
    if (state != SP_IN_NATIVE) return SP_ILLEGAL;
    if ((entered = sp_enter_native(from)) < 0) return entered;
    return sp_leave_native(to, call, with);
}
