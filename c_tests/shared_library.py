"""Threads of Python count under a mutex of the shared library: shared_library.py LIBRARY"""
import ctypes
import sys
import threading

THREADS, LOCKS = 4, 2000
library = ctypes.CDLL(sys.argv[1])
mutex = ctypes.create_string_buffer(16)  # an lfm_mutex
assert library.lfm_mutex_open(mutex, ctypes.c_uint64(THREADS), ctypes.c_uint64(10**6), library.lfm_version()) == 0
total = 0


def count():
    global total
    for _ in range(LOCKS):
        assert library.lfm_lock_here(mutex) == 0
        total += 1
        assert library.lfm_unlock_here(mutex) < 16


threads = [threading.Thread(target=count) for _ in range(THREADS)]
for thread in threads:
    thread.start()
for thread in threads:
    thread.join()
assert total == THREADS * LOCKS
assert library.lfm_mutex_close(mutex) == 0
