/* The proved calls themselves (crates/lfm_c) in the place of the model. Their code is not instrumented, so each call is
 * whole: one point before it. Their memory comes from the explorer. */
#include <stdint.h>
#include <string.h>
#include "explorer.h"

#define CALL(name)                                        \
  uint64_t __real_##name(void *seat, uint64_t mutex);     \
  uint64_t __wrap_##name(void *seat, uint64_t mutex) {    \
    explorer_point();                                     \
    return __real_##name(seat, mutex);                    \
  }
CALL(lfm_c_pool_ask) CALL(lfm_c_pool_receive) CALL(lfm_c_pool_try_lock) CALL(lfm_c_pool_unlock) CALL(lfm_c_pool_count)
