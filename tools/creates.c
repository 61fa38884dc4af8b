/* How long 10,000 creates of a mail of 2,000 bytes take, in nanoseconds of processor: python/tests/creates.py compares its own. */
#define _POSIX_C_SOURCE 200809L
#include <mailrep.h>
#include <stdio.h>
#include <string.h>
#include <time.h>

#define TEXT(x) (const uint8_t *)(x), strlen(x)

static long long now(void) {
  struct timespec at;
  clock_gettime(CLOCK_PROCESS_CPUTIME_ID, &at);
  return at.tv_sec * 1000000000LL + at.tv_nsec;
}

int main(void) {
  static uint8_t body[2000];
  mr_device device = {0};
  mr_version version;
  memset(body, 'x', sizeof body);
  int32_t code = mr_open(&device, 0, TEXT("all"), 1000000);
  long long begun = now();
  for (int i = 0; i < 10000 && !code; i++)
    code = mr_create(&device, TEXT("ann@example.org"), TEXT("lunch"), body, sizeof body, TEXT("inbox,work"), 0, 20000, &version);
  printf("%lld\n", now() - begun);
  mr_close(&device);
  return code != 0;
}
