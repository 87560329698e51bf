/* A thread loads the shared library, locks a mutex, unloads the library and loads it again: then it still holds, by the same
 * seat. reloaded LIBRARY */
#include <dlfcn.h>
#include "expect.h"

static lfm_mutex mutex = LFM_MUTEX_INIT_WITH(1);

/* Makes a call of the library by its name. */
static lfm_status call(void *library, const char *name) {
  lfm_status (*found)(lfm_mutex *) = NULL;
  void *at = dlsym(library, name);
  EXPECT(at == NULL, false);
  memcpy(&found, &at, sizeof found);
  return found(&mutex);
}

static void *load(const char *path) {
  void *library = dlopen(path, RTLD_NOW | RTLD_LOCAL);
  EXPECT(library == NULL, false);
  return library;
}

int main(int count, char **words) {
  EXPECT(count, 2);
  void *library = load(words[1]);
  EXPECT(call(library, "lfm_lock_here"), LFM_DONE);
  EXPECT(dlclose(library), 0);
  library = load(words[1]);
  EXPECT(call(library, "lfm_lock_here"), LFM_AGAIN);
  EXPECT(call(library, "lfm_unlock_here"), LFM_STILL);
  EXPECT(call(library, "lfm_unlock_here"), LFM_DONE);
  EXPECT(call(library, "lfm_mutex_close"), LFM_DONE);
  EXPECT(dlclose(library), 0);
  return 0;
}
