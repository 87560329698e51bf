# shellcheck shell=bash
# The options by which programs of c_tests/ are compiled and run. The scripts that do this source this file.

# shellcheck disable=SC2034 # those scripts use these
addresses_checked=(-g '-fsanitize=address,undefined' -fno-sanitize-recover=all)
# shellcheck disable=SC2034
races_checked=(-g -fsanitize=thread)
warnings=(-Wall -Wextra -Werror)

# options_of FILE   the options that this file of c_tests/ is compiled with. `dialect` may be another one of C++ than 17
options_of() {
  local wraps
  case $1 in
    *.c) printf '%s ' -std=c11 -O2 "${warnings[@]}" ;;
    *) printf '%s ' "-std=c++${dialect:-17}" -O2 "${warnings[@]}" ;;
  esac
  case $1 in
    no_memory.c)
      # -fno-builtin: the compiler must not leave out an allocation whose block is freed in the same function
      wraps=-Wl,--wrap=mmap,--wrap=munmap,--wrap=malloc,--wrap=calloc,--wrap=realloc,--wrap=free,--wrap=posix_memalign
      printf '%s ' -fno-builtin "$wraps"
      ;;
    last_ends.cpp | many_mutexes.cpp) printf '%s' -Wl,--wrap=lfm_c_pool_open ;;
    forked_child.cpp) printf '%s' -Wl,--wrap=lfm_c_pool_take_seat ;;
    forked_calls.cpp)
      printf '%s' -Wl
      printf ',--wrap=lfm_c_%s' blank_pool blank_pool_seat pool_{open,take_seat,number,depth,count,ask,receive,try_lock,unlock}
      ;;
    endings.cpp | wakes_put_off.cpp) printf '%s' -Wl,--wrap=syscall ;;
    bench.cpp | statics.cpp) printf '%s' -std=c++20 ;; # which have barriers and constinit
    without_exceptions.cpp) printf '%s' '-fno-exceptions -fno-rtti' ;;
  esac
}

# arguments_of FILE   the arguments that its program is run with
arguments_of() {
  case $1 in
    bench.cpp) printf '1 1' ;; # rounds and milliseconds of each: no times are tested
    soak.c) printf '3 4' ;;    # seconds and threads
  esac
}
