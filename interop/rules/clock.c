/* Loaded before the C library: the time is NOW. */
#include <stdlib.h>
#include <time.h>

time_t time(time_t *to) {
  time_t now = atol(getenv("NOW"));
  if (to) *to = now;
  return now;
}
