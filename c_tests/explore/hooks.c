/* The runtime of -fsanitize=thread: gcc makes a call of each access, and this file is what it calls. So each atomic
 * operation is a point at which another fiber may go on, and each plain access is checked. The C file's text is
 * unchanged. */
#include "state.h"

#define CALLER ((u64)__builtin_return_address(0))

void __tsan_init(void) {}
void __tsan_func_entry(void *pc) { (void)pc; }
void __tsan_func_exit(void) {}
#define PLAIN(n)                                                                                                      \
  void __tsan_read##n(void *at) { touch(at, n, false, false); }                                                       \
  void __tsan_write##n(void *at) { touch(at, n, true, false); }                                                       \
  void __tsan_unaligned_read##n(void *at) { touch(at, n, false, false); }                                             \
  void __tsan_unaligned_write##n(void *at) { touch(at, n, true, false); }
PLAIN(1) PLAIN(2) PLAIN(4) PLAIN(8) PLAIN(16)
void __tsan_read_range(void *at, size_t n) { if (n) touch(at, n, false, false); }
void __tsan_write_range(void *at, size_t n) { if (n) touch(at, n, true, false); }

#define ATOMICS(bits, type)                                                                                           \
  type __tsan_atomic##bits##_load(const volatile type *at, int order) {                                               \
    stop_at(ATOMIC, (const void *)at, CALLER, false);                                                                 \
    touch((const void *)at, sizeof *at, false, true);                                                                 \
    acquires((const void *)at, order);                                                                                \
    return *at;                                                                                                       \
  }                                                                                                                   \
  void __tsan_atomic##bits##_store(volatile type *at, type value, int order) {                                        \
    stop_at(ATOMIC, (const void *)at, CALLER, true);                                                                  \
    touch((const void *)at, sizeof *at, true, true);                                                                  \
    releases((const void *)at, order, false);                                                                         \
    *at = value;                                                                                                      \
  }                                                                                                                   \
  RMW(bits, type, exchange, value)                                                                                    \
  RMW(bits, type, fetch_add, (type)(found + value))                                                                   \
  RMW(bits, type, fetch_sub, (type)(found - value))                                                                   \
  RMW(bits, type, fetch_and, (type)(found & value))                                                                   \
  RMW(bits, type, fetch_or, (type)(found | value))                                                                    \
  int __tsan_atomic##bits##_compare_exchange_strong(volatile type *at, type *expected, type value, int order, int failed) { \
    stop_at(ATOMIC, (const void *)at, CALLER, true);                                                                  \
    bool is_done = *at == *expected;                                                                                  \
    touch((const void *)at, sizeof *at, is_done, true);                                                               \
    acquires((const void *)at, is_done ? order : failed);                                                             \
    if (is_done) {                                                                                                    \
      releases((const void *)at, order, true);                                                                        \
      *at = value;                                                                                                    \
    } else                                                                                                            \
      *expected = *at;                                                                                                \
    return is_done;                                                                                                   \
  }                                                                                                                   \
  int __tsan_atomic##bits##_compare_exchange_weak(volatile type *at, type *expected, type value, int order, int failed) { \
    return __tsan_atomic##bits##_compare_exchange_strong(at, expected, value, order, failed);                         \
  }
#define RMW(bits, type, name, result)                                                                                 \
  type __tsan_atomic##bits##_##name(volatile type *at, type value, int order) {                                       \
    stop_at(ATOMIC, (const void *)at, CALLER, true);                                                                  \
    touch((const void *)at, sizeof *at, true, true);                                                                  \
    acquires((const void *)at, order);                                                                                \
    releases((const void *)at, order, true);                                                                          \
    type found = *at;                                                                                                 \
    (void)found;                                                                                                      \
    *at = (result);                                                                                                   \
    return found;                                                                                                     \
  }
ATOMICS(8, u8) ATOMICS(16, uint16_t) ATOMICS(32, u32) ATOMICS(64, u64)
