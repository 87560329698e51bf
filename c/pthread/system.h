/* The calls of the system under the same names. They are looked up before a program begins, and one that is made earlier is
 * looked up then. A look-up must not fail, since it may be made by a malloc that initializes its mutexes: to say the error,
 * the system would call malloc. */

/* Of condition variables glibc has on x86-64 two versions. The older one, of 8 bytes, is for programs from before 2003. */
#if defined(__x86_64__)
#define OF_CONDS "GLIBC_2.3.2"
#else
#define OF_CONDS NULL
#endif

/* The constructors here call nothing that a sanitizer has a function of its own for, as it has of strcmp: if it is part of the
 * program, it is not initialized yet, and its function would end the program. */

SLOW_PATH void *find_in_system(const char *name, const char *version) {
  return version ? dlvsym(RTLD_NEXT, name, version) : dlsym(RTLD_NEXT, name);
}

/* Defines system_NAME, which makes the system's call of this name and version, or answers ENOSYS if there is none. A version of
 * null is the newest. */
#define SYSTEM_CALL(name, version, parameters, arguments)                                  \
  static void *at_##name;                                                                  \
  __attribute__((constructor(102))) static void find_##name(void) {                        \
    __atomic_store_n(&at_##name, find_in_system("pthread_" #name, version), __ATOMIC_RELAXED);\
  }                                                                                        \
  SLOW_PATH int system_##name parameters {                                                 \
    COUNT_CALL(passed_on);                                                                 \
    if (!__atomic_load_n(&at_##name, __ATOMIC_RELAXED)) find_##name();                     \
    void *found = __atomic_load_n(&at_##name, __ATOMIC_RELAXED);                           \
    return found ? ((int(*) parameters)(uintptr_t)found) arguments : ENOSYS;               \
  }

SYSTEM_CALL(mutex_init, NULL, (pthread_mutex_t * mutex, const pthread_mutexattr_t *attributes), (mutex, attributes))
SYSTEM_CALL(mutex_destroy, NULL, (pthread_mutex_t * mutex), (mutex))
SYSTEM_CALL(mutex_lock, NULL, (pthread_mutex_t * mutex), (mutex))
SYSTEM_CALL(mutex_trylock, NULL, (pthread_mutex_t * mutex), (mutex))
SYSTEM_CALL(mutex_timedlock, NULL, (pthread_mutex_t * mutex, const struct timespec *end), (mutex, end))
SYSTEM_CALL(mutex_clocklock, NULL, (pthread_mutex_t * mutex, clockid_t clock, const struct timespec *end), (mutex, clock, end))
SYSTEM_CALL(mutex_unlock, NULL, (pthread_mutex_t * mutex), (mutex))
SYSTEM_CALL(cond_init, OF_CONDS, (pthread_cond_t * cond, const pthread_condattr_t *attributes), (cond, attributes))
SYSTEM_CALL(cond_destroy, OF_CONDS, (pthread_cond_t * cond), (cond))
SYSTEM_CALL(cond_wait, OF_CONDS, (pthread_cond_t * cond, pthread_mutex_t *mutex), (cond, mutex))
SYSTEM_CALL(cond_timedwait, OF_CONDS, (pthread_cond_t * cond, pthread_mutex_t *mutex, const struct timespec *end),
            (cond, mutex, end))
SYSTEM_CALL(cond_clockwait, NULL, (pthread_cond_t * cond, pthread_mutex_t *mutex, clockid_t clock, const struct timespec *end),
            (cond, mutex, clock, end))
SYSTEM_CALL(cond_signal, OF_CONDS, (pthread_cond_t * cond), (cond))
SYSTEM_CALL(cond_broadcast, OF_CONDS, (pthread_cond_t * cond), (cond))
