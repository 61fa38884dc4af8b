/* Two devices that several threads use in turn, one call at a time behind a lock each, while a third belongs to one thread alone
   (tools/try-c runs it under helgrind, which tells where two threads met in the library without an order between them). */
#include <mailrep.h>
#include <pthread.h>
#include <stdio.h>
#include <string.h>

#define TEXT(x) (const uint8_t *)(x), strlen(x)
#define THREADS 8
#define MESSAGES 50

typedef struct shared {
  pthread_mutex_t lock;
  mr_device device;
} shared;

static shared phone = {PTHREAD_MUTEX_INITIALIZER, {0}}, office = {PTHREAD_MUTEX_INITIALIZER, {0}};

/* One message on each of the two, and a look at the first one's counts. */
static int write_both(void) {
  shared *both[] = {&phone, &office};
  int wrong = 0;
  for (int i = 0; i < 2; i++) {
    mr_version version;
    mr_count count;
    pthread_mutex_lock(&both[i]->lock);
    wrong |= mr_create(&both[i]->device, TEXT("ann"), TEXT("Hi"), TEXT("Come."), TEXT("inbox"), 0, 20000, &version);
    wrong |= mr_counts(&both[i]->device, &count);
    pthread_mutex_unlock(&both[i]->lock);
  }
  return wrong;
}

/* The thread's own device lives beside the two, with no lock. */
static void *work(void *number) {
  mr_device own = {0};
  mr_version version;
  int wrong = mr_open(&own, (uint16_t)(size_t)number, TEXT("all"), 1000);
  for (int i = 0; i < MESSAGES; i++) {
    wrong |= write_both();
    wrong |= mr_create(&own, TEXT("bob"), TEXT("Ho"), TEXT("Gone."), TEXT("work"), 0, 20000, &version);
  }
  mr_close(&own);
  return wrong ? &phone : NULL;
}

int main(void) {
  pthread_t threads[THREADS];
  mr_count count[2];
  void *wrong = NULL;
  int code = mr_open(&phone.device, 0, TEXT("all"), 100000) | mr_open(&office.device, 1, TEXT("label:inbox"), 100000);
  for (size_t i = 0; i < THREADS; i++) code |= pthread_create(&threads[i], NULL, work, (void *)(i + 2));
  for (size_t i = 0; i < THREADS; i++) {
    void *told = NULL;
    code |= pthread_join(threads[i], &told);
    if (told) wrong = told;
  }
  code |= mr_counts(&phone.device, &count[0]) | mr_counts(&office.device, &count[1]);
  mr_close(&phone.device);
  mr_close(&office.device);
  printf("%zu and %zu messages of %d threads in turn\n", count[0].heads, count[1].heads, THREADS);
  return code || wrong || count[0].heads != THREADS * MESSAGES || count[1].heads != THREADS * MESSAGES;
}
