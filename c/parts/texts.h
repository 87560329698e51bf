/* The version, and what each status means in words. */

int lfm_version(void) { return LFM_VERSION; }

const char *lfm_status_text(lfm_status status) {
  switch (status) {
    case LFM_DONE: return "done";
    case LFM_AGAIN: return "the seat holds the mutex once more";
    case LFM_STILL: return "the seat still holds the mutex";
    case LFM_ASLEEP: return "the seat sleeps";
    case LFM_POSTED: return "the mutex was released to a seat that had begun to ask";
    case LFM_GRANTED: return "the mutex was released to the oldest queued seat";
    case LFM_NOBODY: return "no thread waited";
    case LFM_TIMED_OUT: return "the time of the wait was over";
    case LFM_BLANK: return "null, a mutex that is neither open nor LFM_MUTEX_INIT, or a seat that is not taken";
    case LFM_TAKEN: return "the mutex is open, or the seat taken, already";
    case LFM_LIMIT: return "a number is outside its limits";
    case LFM_NO_MEMORY: return "memory was refused, or 16,776,704 mutexes are open";
    case LFM_NO_SEAT: return "threads, seats and locks with a time limit have all 4,095 numbers of the process";
    case LFM_NOT_BACK: return "some seats are not given back";
    case LFM_HOLDING: return "the mutex is held";
    case LFM_FOREIGN: return "the seat is of another mutex or thread";
    case LFM_OTHER_HEADER: return "the library is of another version than the header";
    case LFM_WAITED_FOR: return "a thread waits at the condition variable";
    case LFM_SEAT_ASLEEP: return "the seat sleeps in a call of another thread";
    case LFM_NOT_OWNER: return "the seat doesn't hold the mutex";
    case LFM_NESTED: return "the seat holds the mutex more than once";
    case LFM_DEPTH_FULL: return "the seat holds the mutex 65,535 times already";
    case LFM_SPENT: return "the mutex has had 2^48 - 2^13 queued locks, or the seat's number 2^47 posts";
    case LFM_NO_SUCH_SEAT: return "no seat has this number";
    case LFM_NOT_WAITING: return "the seat doesn't sleep";
    case LFM_BUSY: return "the mutex is busy";
  }
  return "no status of ligdrosa";
}
