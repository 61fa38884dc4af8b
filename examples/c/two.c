/* Two devices in step, in one program. It prints two.expected.
 *
 *   tools/c-library build/c
 *   gcc examples/c/two.c -I build/c -L build/c -l:libmailrep.a -o two && ./two
 */
#include <mailrep.h>
#include <stdio.h>
#include <stdlib.h>
#include <string.h>

#define ROOM ((size_t)1 << 20)

/* What a call wrote last: a frame, or a part of a message. */
static uint8_t frame[ROOM];
static size_t frame_len;

/* A text and its length. */
#define TEXT(x) (const uint8_t *)(x), strlen(x)

/* Ends the program where a call doesn't answer 0. */
#define MUST(call) must((call), #call)
static void must(int32_t code, const char *call) {
  if (code != MR_OK) {
    fprintf(stderr, "%s: 0x%x, %s\n", call, (unsigned)code, mr_code_text(code));
    exit(1);
  }
}

/* What a call answered that was to be refused. */
static void tell(const char *what, int32_t code) { printf("%s: 0x%x, %s\n", what, (unsigned)code, mr_code_text(code)); }

/* `to` asks, and `from` gives at most so many records; then the connection breaks. In a program of two processes each frame goes
 * over a socket: mr_frame_len tells the reader how many bytes to wait for. */
static int sync_from(mr_device *to, mr_device *from, int most) {
  uint64_t session, stream;
  uint32_t outcome = MR_TOOK;
  int records = 0;
  MUST(mr_pull(to, &session));
  MUST(mr_frame(to, frame, ROOM, &frame_len));
  MUST(mr_answer(from, frame, frame_len, &stream));
  for (; records < most && outcome != MR_FINISHED; records++) {
    MUST(mr_next(from, stream));
    MUST(mr_frame(from, frame, ROOM, &frame_len));
    MUST(mr_receive(to, frame, frame_len, &outcome));
  }
  if (outcome != MR_FINISHED) {
    MUST(mr_cut_in(to, session));
    MUST(mr_cut_out(from, stream));
  }
  return records;
}

static void show_labels(mr_device *device, mr_version version, size_t labels) {
  for (size_t i = 0; i < labels; i++) {
    MUST(mr_label(device, version, i, frame, ROOM, &frame_len));
    printf(" %.*s", (int)frame_len, (const char *)frame);
  }
}

static void show(const char *name, mr_device *device) {
  mr_count count;
  MUST(mr_counts(device, &count));
  printf("%s holds %zu, after %zu changes and %zu events\n", name, count.heads, count.changes, count.events);
  for (size_t i = 0; i < count.heads; i++) {
    mr_held head;
    mr_placed card;
    MUST(mr_head(device, i, &head));
    MUST(mr_part(device, head.version, MR_SUBJECT, frame, ROOM, &frame_len));
    MUST(mr_card(device, head.version, &card));
    printf("  %u.%u of %u.%u, %.*s, flags %u, day %u:", head.version.author, head.version.counter, head.item.author,
           head.item.counter, (int)frame_len, (char *)frame, card.flags, card.day);
    show_labels(device, head.version, card.labels);
    puts("");
  }
}

static void show_changes(mr_device *device, size_t since) {
  mr_changed change;
  for (size_t i = since; mr_change(device, i, &change) == MR_OK; i++) {
    printf(" %c%u.%u", change.entered ? '+' : '-', change.version.author, change.version.counter);
  }
  puts("");
}

/* The log of the device, as a program keeps it in a file: it appends the events that are new after each call. */
static size_t log_of(mr_device *device, uint8_t *log) {
  size_t len, all = 0;
  mr_count count;
  MUST(mr_counts(device, &count));
  for (size_t i = 0; i < count.events; i++) {
    MUST(mr_event(device, i, log + all, ROOM - all, &len));
    all += len;
  }
  return all;
}

static void story(mr_device *phone, mr_device *office) {
  mr_version lunch, cafe, read;
  MUST(mr_create(phone, TEXT("ann@example.org"), TEXT("lunch"), TEXT("See you there."), TEXT("inbox,work"), 0, 20000, &lunch));
  MUST(mr_create(phone, TEXT("bob@example.org"), TEXT("caf\xc3\xa9"), TEXT("Come."), TEXT("inbox"), MR_SEEN, 20001, &cafe));
  printf("cut after %d records\n", sync_from(office, phone, 2));
  printf("in step after %d records\n", sync_from(office, phone, 1000));
  MUST(mr_edit(office, &lunch, 1, TEXT("ann@example.org"), TEXT("lunch"), TEXT("See you there."), TEXT("inbox,work"), MR_SEEN, 20000,
               &read));
  printf("in step after %d records\n", sync_from(phone, office, 1000));
  show("phone", phone);
  show("office", office);
}

static void refusals(mr_device *phone, mr_device *closed) {
  mr_version version = {9, 9};
  tell("a closed device", mr_cut_in(closed, 1));
  tell("a device in use", mr_open(phone, 0, TEXT("all"), 1000));
  tell("a bad filter", mr_open(closed, 2, TEXT("label:"), 1000));
  tell("bytes that are no text", mr_create(phone, TEXT("\xff"), TEXT("x"), TEXT("y"), TEXT("inbox"), 0, 0, &version));
  tell("a bad label", mr_create(phone, TEXT("x"), TEXT("x"), TEXT("y"), TEXT("In Box"), 0, 0, &version));
  tell("no session", mr_cut_in(phone, 7));
  tell("half a frame", mr_receive(phone, TEXT("abc"), &(uint32_t){0}));
  tell("an unknown version", mr_part(phone, version, MR_BODY, frame, 3, &frame_len));
  version = (mr_version){0, 2};
  tell("a small buffer", mr_part(phone, version, MR_BODY, frame, 3, &frame_len));
  printf("which wants %zu bytes\n", frame_len);
}

int main(void) {
  static uint8_t log[ROOM];
  mr_device phone = {0}, office = {0}, again = {0};
  if (mr_abi() >> 16 != MR_ABI >> 16 || mr_abi() < MR_ABI) {
    fputs("this libmailrep is of another interface\n", stderr);
    return 2;
  }
  MUST(mr_open(&phone, 0, TEXT("label:inbox"), 1000));
  MUST(mr_open(&office, 1, TEXT("all"), 1000));
  story(&phone, &office);
  refusals(&phone, &again);
  size_t len = log_of(&phone, log);
  mr_close(&phone);
  MUST(mr_replay(&again, 0, TEXT("label:inbox"), 1000, log, len));
  show("the phone again", &again);
  printf("its changes:");
  show_changes(&again, 0);
  mr_close(&again);
  mr_close(&office);
  mr_close(&office);
  return 0;
}
