/* Two devices that change one message while apart, and how that is merged. It prints merge.expected.
 *
 *   tools/c-library build/c
 *   gcc examples/c/merge.c -I build/c -L build/c -l:libmailrep.a -o merge && ./merge
 */
#include <mailrep.h>
#include <stdio.h>
#include <stdlib.h>
#include <string.h>

#define ROOM ((size_t)1 << 20)

/* What a call wrote last: a frame, or a part of a message. */
static uint8_t frame[ROOM];
static size_t frame_len;

/* A text and its length. */
#define TEXT(x) (const uint8_t *)(x), strlen(x)

/* Ends the program where a call doesn't answer 0. */
#define MUST(call) must((call), #call)
static void must(int32_t code, const char *call) {
  if (code != MR_OK) {
    fprintf(stderr, "%s: 0x%x, %s\n", call, (unsigned)code, mr_code_text(code));
    exit(1);
  }
}

/* `to` takes all that `from` has for it. */
static void sync_from(mr_device *to, mr_device *from) {
  uint64_t session, stream;
  uint32_t outcome = MR_TOOK;
  MUST(mr_pull(to, &session));
  MUST(mr_frame(to, frame, ROOM, &frame_len));
  MUST(mr_answer(from, frame, frame_len, &stream));
  while (outcome != MR_FINISHED) {
    MUST(mr_next(from, stream));
    MUST(mr_frame(from, frame, ROOM, &frame_len));
    MUST(mr_receive(to, frame, frame_len, &outcome));
  }
}

/* A version of the message: its subject, labels and flags. */
static mr_version edited(mr_device *device, mr_version base, const char *subject, const char *labels, uint8_t flags) {
  mr_version version;
  MUST(mr_edit(device, &base, 1, TEXT("ann@example.org"), TEXT(subject), TEXT("See you."), TEXT(labels), flags, 20000, &version));
  return version;
}

/* The heads of each item that is in conflict. */
static void show_conflicts(const char *name, mr_device *device) {
  mr_version items[16], heads[16];
  size_t count, head_count;
  MUST(mr_conflicts(device, items, 16, &count));
  printf("%s has %zu in conflict\n", name, count);
  for (size_t i = 0; i < count; i++) {
    MUST(mr_heads_of(device, items[i], heads, 16, &head_count));
    printf("  %u.%u:", items[i].author, items[i].counter);
    for (size_t j = 0; j < head_count; j++) printf(" %u.%u", heads[j].author, heads[j].counter);
    puts("");
  }
}

/* What a program does by itself with each conflict, once a sync is over. */
static void merge_all(mr_device *device) {
  mr_version items[16], merged;
  size_t count;
  MUST(mr_conflicts(device, items, 16, &count));
  for (size_t i = 0; i < count; i++) {
    int32_t code = mr_merge(device, items[i], &merged);
    if (code == MR_OK) {
      printf("merged as %u.%u\n", merged.author, merged.counter);
    } else {
      printf("not merged: 0x%x, %s\n", (unsigned)code, mr_code_text(code)); /* show the heads to the user */
    }
  }
}

static void show(const char *name, mr_device *device) {
  mr_held head;
  mr_placed card;
  for (size_t i = 0; mr_head(device, i, &head) == MR_OK; i++) {
    MUST(mr_part(device, head.version, MR_SUBJECT, frame, ROOM, &frame_len));
    MUST(mr_card(device, head.version, &card));
    printf("%s has %u.%u, %.*s, flags %u:", name, head.version.author, head.version.counter, (int)frame_len, (char *)frame, card.flags);
    for (size_t j = 0; j < card.labels; j++) {
      MUST(mr_label(device, head.version, j, frame, ROOM, &frame_len));
      printf(" %.*s", (int)frame_len, (char *)frame);
    }
    puts("");
  }
}

int main(void) {
  mr_device phone = {0}, office = {0};
  mr_version lunch, merged;
  MUST(mr_open(&phone, 0, TEXT("all"), 1000));
  MUST(mr_open(&office, 1, TEXT("all"), 1000));
  MUST(mr_create(&phone, TEXT("ann@example.org"), TEXT("lunch"), TEXT("See you."), TEXT("inbox"), 0, 20000, &lunch));
  sync_from(&office, &phone);

  /* Apart, one marks it as read, and the other moves and flags it. */
  edited(&phone, lunch, "lunch", "inbox", MR_SEEN);
  edited(&office, lunch, "lunch", "archive", MR_FLAGGED);
  sync_from(&phone, &office);
  show_conflicts("the phone", &phone);
  merge_all(&phone);
  show_conflicts("the phone", &phone);
  printf("again: 0x%x\n", (unsigned)mr_merge(&phone, lunch, &merged));
  sync_from(&office, &phone);
  show("the office", &office);

  /* Apart again, one changes the subject. */
  mr_held head;
  MUST(mr_head(&office, 0, &head));
  edited(&phone, head.version, "lunch", "archive", MR_SEEN);
  edited(&office, head.version, "lunch at noon", "archive", MR_SEEN);
  sync_from(&office, &phone);
  show_conflicts("the office", &office);
  merge_all(&office);
  mr_close(&phone);
  mr_close(&office);
  return 0;
}
