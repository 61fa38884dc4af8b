/* Two devices in step, and one that is kept, with each call for memory of a run refused in turn (tools/try-c links it with malloc and
   realloc wrapped). The call then answers MR_NO_MEMORY and has changed nothing that C sees; made again it does what it is to do, and the
   run ends as it does with all memory. Where there was none to note an act the kept device has failed, and is opened again. */
#include <mailrep.h>
#include <stdio.h>
#include <stdlib.h>
#include <string.h>

void *__real_malloc(size_t);
void *__real_realloc(void *, size_t);

/* How many calls for memory there were, and how many are left until one is refused: none where it is below 0. */
static long asked, left = -1;
static int refused, wrong;

static int refuse(void) {
  asked++;
  return left >= 0 && left-- == 0;
}

void *__wrap_malloc(size_t n) { return refuse() ? NULL : __real_malloc(n); }
void *__wrap_realloc(void *at, size_t n) { return refuse() ? NULL : __real_realloc(at, n); }

#define TEXT(x) (const uint8_t *)(x), strlen(x)

/* What C sees of a device: its counts, its frame, what is open. */
typedef struct seen {
  int32_t codes[2];
  mr_count count;
  size_t frame_len;
  uint8_t frame[4096];
} seen;

static void look(mr_device *device, seen *s) {
  memset(s, 0, sizeof *s);
  s->codes[0] = mr_counts(device, &s->count);
  s->codes[1] = mr_frame(device, s->frame, sizeof s->frame, &s->frame_len);
}

/* A call that may be refused once. */
#define CALL(device, call)                                        \
  do {                                                            \
    static seen before, after;                                    \
    look(device, &before);                                        \
    int32_t code = (call);                                        \
    if (code == MR_NO_MEMORY) {                                   \
      refused++;                                                  \
      look(device, &after);                                       \
      if (memcmp(&before, &after, sizeof before)) wrong++, puts("changed: " #call); \
      code = (call);                                              \
    }                                                             \
    if (code) wrong++, printf("0x%x: %s\n", (unsigned)code, #call); \
  } while (0)

static uint8_t bytes[1 << 16], log_bytes[1 << 16];
static size_t len;

/* A call that gives numbers that are open, and none of them is left at the end. */
static void none_open(mr_device *device, int32_t (*call)(mr_device *, uint64_t *, size_t, size_t *)) {
  uint64_t numbers[8];
  size_t count = 9;
  CALL(device, call(device, numbers, 8, &count));
  if (count) wrong++, printf("%zu are open\n", count);
}

static size_t kept(mr_device *device) {
  size_t all = 0;
  mr_count count = {0, 0, 0, 0};
  CALL(device, mr_counts(device, &count));
  for (size_t i = 0; i < count.events; i++) {
    CALL(device, mr_event(device, i, log_bytes + all, sizeof log_bytes - all, &len));
    all += len;
  }
  return all;
}

static void run(void) {
  mr_device phone = {0}, office = {0}, again = {0};
  mr_version first, second, other;
  mr_claimed claim;
  mr_count count;
  uint64_t session, stream;
  uint32_t outcome = MR_TOOK;
  CALL(&phone, mr_open(&phone, 0, TEXT("label:inbox"), 1000));
  CALL(&office, mr_open(&office, 1, TEXT("all"), 1000));
  CALL(&phone, mr_create(&phone, TEXT("ann@example.org"), TEXT("lunch"), TEXT("See you."), TEXT("inbox,work"), 0, 20000, &first));
  CALL(&phone, mr_edit(&phone, &first, 1, TEXT("ann@example.org"), TEXT("lunch"), TEXT("Today."), TEXT("inbox"), 1, 20000, &second));
  CALL(&phone, mr_create(&phone, TEXT("ann@example.org"), TEXT("note"), TEXT(""), TEXT("work"), 0, 20000, &other));
  CALL(&office, mr_pull(&office, &session));
  CALL(&office, mr_frame(&office, bytes, sizeof bytes, &len));
  CALL(&phone, mr_answer(&phone, bytes, len, &stream));
  for (int i = 0; i < 50 && outcome != MR_FINISHED; i++) {
    CALL(&phone, mr_next(&phone, stream));
    CALL(&phone, mr_frame(&phone, bytes, sizeof bytes, &len));
    CALL(&phone, mr_frame_claim(bytes, len, &claim));
    CALL(&office, mr_receive(&office, bytes, len, &outcome));
  }
  CALL(&office, mr_vouch(&office, other));
  CALL(&office, mr_frame(&office, bytes, sizeof bytes, &len));
  CALL(&phone, mr_release(&phone, bytes, len));
  CALL(&office, mr_pull(&office, &session));
  CALL(&office, mr_frame(&office, bytes, sizeof bytes, &len));
  CALL(&phone, mr_answer(&phone, bytes, len, &stream));
  CALL(&phone, mr_cut_out(&phone, stream));
  CALL(&office, mr_cut_in(&office, session));
  none_open(&phone, mr_streams);
  none_open(&office, mr_sessions);
  size_t all = kept(&office);
  CALL(&again, mr_replay(&again, 1, TEXT("all"), 1000, log_bytes, all));
  CALL(&again, mr_counts(&again, &count));
  if (count.heads != 2 || outcome != MR_FINISHED) wrong++, printf("the office has %zu\n", count.heads);
  CALL(&phone, mr_retire(&phone));
  mr_close(&phone);
  mr_close(&office);
  mr_close(&again);
}

/* ---- a kept device, whose file is here */

static uint8_t file[1 << 16];
static size_t file_len;
static const uint8_t birth[MR_BIRTH] = {7}, mark[MR_MARK] = {9};

static void settle(mr_device *device) {
  mr_act act;
  for (size_t i = 0; mr_act_at(device, i, &act) == MR_OK; i++) {
    size_t written = 0;
    if (act.kind == MR_WRITE && mr_act_bytes(device, i, file + act.at, sizeof file - act.at, &written)) wrong++, puts("no bytes");
    if (act.kind == MR_WRITE && act.at + written > file_len) file_len = act.at + written;
    if (act.kind == MR_CUT && act.at < file_len) file_len = act.at;
  }
  if (mr_settle(device, 1)) wrong++, puts("not settled");
}

/* A call that opens a kept device, which may be refused once: also where there is no memory to note an act. */
static void settle_by(mr_device *device, int32_t code, int32_t again) {
  if (code) refused++;
  if (code && code != MR_NO_MEMORY && code != MR_JOURNAL_FAILED && code != MR_FAILED) wrong++, printf("0x%x: not opened\n", (unsigned)code);
  if (again) wrong++, printf("0x%x: not opened again\n", (unsigned)again);
  settle(device);
}

static void open_kept(mr_device *device) {
  int32_t code = mr_kept_open(device, file, file_len, mark, MR_MARK, birth, MR_BIRTH);
  settle_by(device, code, code ? mr_kept_open(device, file, file_len, mark, MR_MARK, birth, MR_BIRTH) : MR_OK);
}

/* A commit, and whether it is to be asked for again with its events: there was no memory to note an act, and the device has failed. */
static int commit(mr_device *device) {
  int32_t code = mr_commit(device);
  if (code == MR_NO_MEMORY) refused++, code = mr_commit(device);
  if (code == MR_FAILED) {
    refused++;
    if (mr_retire(device) != MR_FAILED) wrong++, puts("goes on after a failure");
    mr_close(device);
    open_kept(device);
    return 1;
  }
  if (code) wrong++, printf("0x%x: commit\n", (unsigned)code);
  settle(device);
  return 0;
}

static void run_kept(void) {
  mr_device phone = {0};
  mr_version unused = {0, 0};
  mr_told told = {9, 0, {0, 0}};
  mr_count count = {0, 0, 0, 0};
  uint64_t session = 0;
  size_t notes = 0;
  file_len = 0;
  int32_t code = mr_kept_begin(&phone, 0, TEXT("all"), 1000, birth, MR_BIRTH, mark, MR_MARK);
  settle_by(&phone, code, code ? mr_kept_begin(&phone, 0, TEXT("all"), 1000, birth, MR_BIRTH, mark, MR_MARK) : MR_OK);
  do {
    CALL(&phone, mr_create(&phone, TEXT("ann@example.org"), TEXT("lunch"), TEXT("See you."), TEXT("inbox,work"), 0, 20000, &unused));
    CALL(&phone, mr_note(&phone, TEXT("lunch")));
  } while (commit(&phone));
  CALL(&phone, mr_told_at(&phone, 0, &told));
  if (told.kind != MR_ISSUED || told.version.counter != 1) wrong++, puts("another version");
  do {
    CALL(&phone, mr_pull(&phone, &session));
  } while (commit(&phone));
  CALL(&phone, mr_told_at(&phone, 0, &told));
  CALL(&phone, mr_told_frame(&phone, 0, bytes, sizeof bytes, &len));
  if (told.kind != MR_ASKED || len == 0) wrong++, puts("no request");
  mr_close(&phone);
  open_kept(&phone);
  CALL(&phone, mr_counts(&phone, &count));
  if (count.heads != 1) wrong++, printf("the phone has %zu\n", count.heads);
  CALL(&phone, mr_notes(&phone, &notes));
  CALL(&phone, mr_note_at(&phone, 0, bytes, sizeof bytes, &len));
  if (notes != 1 || len != 5 || memcmp(bytes, "lunch", 5)) wrong++, printf("the phone found %zu notes\n", notes);
  none_open(&phone, mr_sessions);
  mr_close(&phone);
}

/* Runs it once with all memory, and then once for each call that asks for some. Says how many those are. */
static long refuse_each(void (*of)(void)) {
  left = -1;
  asked = 0;
  of();
  long all = asked;
  for (long i = 0; i < all; i++) {
    left = i;
    of();
  }
  return all;
}

int main(void) {
  long all = refuse_each(run) + refuse_each(run_kept);
  printf("%ld calls for memory, each refused once: %d calls answered so, %d are wrong\n", all, refused, wrong);
  return wrong || refused < all;
}
