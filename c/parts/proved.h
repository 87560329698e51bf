/* The proved calls of crates/lfm_c, and how their answers are read. They neither sleep nor wake. No other part declares
 * them.
 *
 * A handle is memory of the size and alignment that these calls answer, and one of them makes it blank before any other is
 * given it. A call answers a status in the low 8 bits. Above it, an ask or unlock answers the number of the seat that it
 * granted the mutex and that is to be woken, or 0. A seat's number and depth, and a mutex's count, are plain numbers, and 0
 * of a blank handle.
 *
 * A handle goes to another thread only as the kit allows: by a lock, a thread's start or join, or a sequentially consistent
 * atomic operation. So each operation on words of the library by which a handle goes to another thread is sequentially
 * consistent, and a comment beside it says whose handle that is. Others have the order that they need. */

/* scripts/c/write_c_sides writes the exports from here */
size_t lfm_c_pool_size(void);
size_t lfm_c_pool_align(void);
size_t lfm_c_pool_seat_size(void);
size_t lfm_c_pool_seat_align(void);
void lfm_c_blank_pool(void *pool);
void lfm_c_blank_pool_seat(void *seat);
uint64_t lfm_c_pool_open(void *pool, uint64_t mutexes, uint64_t seats);
uint64_t lfm_c_pool_take_seat(void *pool, void *seat);
uint64_t lfm_c_pool_number(void *seat);
uint64_t lfm_c_pool_count(void *seat, uint64_t mutex);
uint64_t lfm_c_pool_depth(void *seat, uint64_t mutex);
uint64_t lfm_c_pool_ask(void *seat, uint64_t mutex);
uint64_t lfm_c_pool_receive(void *seat, uint64_t mutex);
uint64_t lfm_c_pool_try_lock(void *seat, uint64_t mutex);
uint64_t lfm_c_pool_unlock(void *seat, uint64_t mutex);
/* to here */

static lfm_status status_of(uint64_t answer) { return (lfm_status)(answer & 255); }
