/* The mutexes of SQLite over ligdrosa.h. scripts/further/foreign_programs links this into programs of SQLite. A program
 * takes these mutexes if the environment has SQLITE_BY_LIGDROSA, and else SQLite's own. That variable is the name of a file:
 * a program that has opened one of them adds a line to it as it ends. */
#include <stdio.h>
#include <stdlib.h>

#include "ligdrosa.h"
#include "sqlite3.h"

enum { SEATS = 128, FIRST_STATIC = SQLITE_MUTEX_STATIC_MAIN, STATICS = SQLITE_MUTEX_STATIC_VFS3 - FIRST_STATIC + 1 };

struct sqlite3_mutex {
  lfm_mutex by;
};

#define ONE {LFM_MUTEX_INIT_WITH(SEATS)}
static sqlite3_mutex statics[] = {ONE, ONE, ONE, ONE, ONE, ONE, ONE, ONE, ONE, ONE, ONE, ONE};
_Static_assert(sizeof statics == STATICS * sizeof *statics, "a mutex for each static number");

/* SQLite's methods answer no error, so a refused call ends the program. */
static void made(lfm_status status) {
  if (!lfm_is_refused(status)) return;
  fprintf(stderr, "Ligdrosa refuses a call: %s\n", lfm_status_text(status));
  abort();
}

static int begin(void) { return SQLITE_OK; }
static int end(void) { return SQLITE_OK; }

static sqlite3_mutex *allocate(int kind) {
  sqlite3_mutex *mutex;
  if (kind >= FIRST_STATIC) return kind < FIRST_STATIC + STATICS ? &statics[kind - FIRST_STATIC] : NULL;
  mutex = calloc(1, sizeof *mutex);
  if (mutex && lfm_is_refused(lfm_mutex_new(&mutex->by, SEATS, LFM_MOST_TAKES))) {
    free(mutex);
    return NULL;
  }
  return mutex;
}

static void discard(sqlite3_mutex *mutex) {
  made(lfm_mutex_close(&mutex->by));
  free(mutex);
}

static void enter(sqlite3_mutex *mutex) { made(lfm_lock_here(&mutex->by)); }
static void leave(sqlite3_mutex *mutex) { made(lfm_unlock_here(&mutex->by)); }

static int try_to_enter(sqlite3_mutex *mutex) {
  lfm_status status = lfm_try_lock_here(&mutex->by);
  if (status == LFM_BUSY) return SQLITE_BUSY;
  made(status);
  return SQLITE_OK;
}

static int is_held(sqlite3_mutex *mutex) { return lfm_depth_here(&mutex->by) != 0; }
static int is_not_held(sqlite3_mutex *mutex) { return !is_held(mutex); }

__attribute__((constructor)) static void choose(void) {
  static const sqlite3_mutex_methods methods = {begin,        end,   allocate, discard,    enter,
                                                try_to_enter, leave, is_held,  is_not_held};
  if (getenv("SQLITE_BY_LIGDROSA") && sqlite3_config(SQLITE_CONFIG_MUTEX, &methods) != SQLITE_OK) abort();
}

__attribute__((destructor)) static void tell(void) {
  const char *name = getenv("SQLITE_BY_LIGDROSA");
  FILE *file = name && statics[0].by.core ? fopen(name, "a") : NULL;
  if (!file) return;
  fprintf(file, "%s\n", "Ligdrosa was called");
  fclose(file);
}
