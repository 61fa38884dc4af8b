/* Two devices that are kept in files. A child process begins them, writes, syncs them and edits; it is killed before each act on a file
 * and in the middle of each write, one run after the other. Each time the parent opens both files: what was handed out is in them, and
 * what was announced is noted there. It prints kept.expected.
 *
 *   tools/c-library build/c
 *   gcc examples/c/kept.c -I build/c -L build/c -l:libmailrep.a -o kept && ./kept
 */
#define _GNU_SOURCE
#include <fcntl.h>
#include <mailrep.h>
#include <signal.h>
#include <stdio.h>
#include <stdlib.h>
#include <string.h>
#include <sys/file.h>
#include <sys/random.h>
#include <sys/stat.h>
#include <sys/wait.h>
#include <unistd.h>

#define ROOM ((size_t)1 << 20)
#define TEXT(x) (const uint8_t *)(x), strlen(x)

/* A device, its file, and how many of its changes have been announced. */
typedef struct kept {
  uint16_t id;
  const char *path;
  int fd;
  mr_device device;
  uint64_t announced;
} kept;

static uint8_t bytes[ROOM];
static size_t len;

/* How many acts are begun until the program dies; and whether it then does half of one that writes. */
static long acts_until_death = -1;
static int dies_halfway;

/* Where the child tells what was handed out, by the device's id, and what it announces, by the id and two. */
static int told_to = -1;

#define MUST(call) must((call), #call)
static void must(int32_t code, const char *call) {
  if (code != MR_OK) {
    fprintf(stderr, "%s: 0x%x, %s\n", call, (unsigned)code, mr_code_text(code));
    exit(1);
  }
}

static void die(const char *what) {
  perror(what);
  exit(1);
}

/* ---- the file */

/* Does one act. */
static int do_act(kept *k, size_t place, const mr_act *act) {
  if (act->kind == MR_WRITE) MUST(mr_act_bytes(&k->device, place, bytes, ROOM, &len));
  if (acts_until_death >= 0 && acts_until_death-- == 0) {
    if (dies_halfway && act->kind == MR_WRITE && pwrite(k->fd, bytes, len / 2, (off_t)act->at) < 0) die("pwrite");
    raise(SIGKILL);
  }
  switch (act->kind) {
    case MR_WRITE: return pwrite(k->fd, bytes, len, (off_t)act->at) == (ssize_t)len;
    case MR_CUT: return ftruncate(k->fd, (off_t)act->at) == 0;
    default: return fdatasync(k->fd) == 0;
  }
}

/* Does all acts that are left, in their order, and says how that went. A write that fails or is short is a failed act: a program that
 * would rather try again does so before it says so. */
static void settle(kept *k) {
  mr_act act;
  int well = 1;
  for (size_t i = 0; well && mr_act_at(&k->device, i, &act) == MR_OK; i++) well = do_act(k, i, &act);
  MUST(mr_settle(&k->device, well));
  if (!well) die(k->path);
}

static void tell(int what) {
  char byte = (char)what;
  if (told_to >= 0 && write(told_to, &byte, 1) != 1) die("write");
}

/* Tells what the last commit hands out: a version to whom it may concern, and a frame into `bytes`. */
static void hand_out(kept *k) {
  mr_told told;
  for (size_t i = 0; mr_told_at(&k->device, i, &told) == MR_OK; i++) {
    if (told.kind == MR_ISSUED) tell(k->id);
    if (told.kind != MR_ISSUED) MUST(mr_told_frame(&k->device, i, bytes, ROOM, &len));
  }
}

static void commit(kept *k) {
  MUST(mr_commit(&k->device));
  settle(k);
  hand_out(k);
}

/* Announces the changes that nobody has heard of. A note in the file says so before: a program that is killed in between never
 * announces them, and none is announced twice. */
static void announce(kept *k) {
  mr_count count;
  MUST(mr_counts(&k->device, &count));
  uint64_t changes = count.changes;
  MUST(mr_note(&k->device, (const uint8_t *)&changes, sizeof changes));
  commit(k);
  for (; k->announced < changes; k->announced++) tell(k->id + 2);
}

/* How many were announced, as the last note says. */
static void find_announced(kept *k) {
  size_t notes;
  k->announced = 0;
  MUST(mr_notes(&k->device, &notes));
  if (notes > 0) MUST(mr_note_at(&k->device, notes - 1, (uint8_t *)&k->announced, sizeof k->announced, &len));
}

/* The place of a file, by the machine's id and the file's inode: a copy of it is at another one. */
static void mark_of(int fd, uint8_t mark[MR_MARK]) {
  struct stat about;
  FILE *id = fopen("/etc/machine-id", "r");
  memset(mark, 0, MR_MARK);
  for (int i = 0; i < 16; i++)
    if (!id || fscanf(id, "%2hhx", &mark[i]) != 1) die("/etc/machine-id");
  fclose(id);
  if (fstat(fd, &about)) die("fstat");
  uint64_t inode = about.st_ino;
  memcpy(mark + 16, &inode, sizeof inode);
}

/* The bytes of the file, synced before they are read. */
static uint8_t *read_whole(int fd, size_t *file_len) {
  struct stat about;
  if (fdatasync(fd) || fstat(fd, &about)) die("fdatasync");
  uint8_t *file = malloc((size_t)about.st_size + 1);
  ssize_t got = file ? pread(fd, file, (size_t)about.st_size, 0) : -1;
  if (got != (ssize_t)about.st_size) die("pread");
  *file_len = (size_t)got;
  return file;
}

/* So that the name of a file that was begun outlives a crash. */
static void sync_folder(const char *path) {
  char folder[64];
  snprintf(folder, sizeof folder, "%s", path);
  *strrchr(folder, '/') = 0;
  int fd = open(folder, O_RDONLY | O_DIRECTORY | O_CLOEXEC);
  if (fd < 0 || fsync(fd)) die(folder);
  close(fd);
}

/* Opens the device of the file, or begins it there. */
static void open_kept(kept *k) {
  uint8_t mark[MR_MARK], birth[MR_BIRTH];
  size_t file_len;
  k->device = (mr_device){0};
  k->fd = open(k->path, O_RDWR | O_CREAT | O_CLOEXEC, 0600);
  if (k->fd < 0 || flock(k->fd, LOCK_EX | LOCK_NB)) die(k->path);
  mark_of(k->fd, mark);
  uint8_t *file = read_whole(k->fd, &file_len);
  int32_t code = mr_kept_open(&k->device, file, file_len, mark, MR_MARK, birth, 0);
  free(file);
  if (code == MR_OPEN_NO_REPLICA) {
    if (ftruncate(k->fd, 0) || getrandom(birth, MR_BIRTH, 0) != MR_BIRTH) die("begin");
    code = mr_kept_begin(&k->device, k->id, TEXT("all"), 1000, birth, MR_BIRTH, mark, MR_MARK);
  }
  must(code, k->path);
  settle(k);
  sync_folder(k->path);
  find_announced(k);
}

static void close_kept(kept *k) {
  mr_close(&k->device);
  close(k->fd);
}

/* ---- what the devices do */

static void create(kept *k, const char *subject) {
  mr_version unused;
  MUST(mr_create(&k->device, TEXT("ann@example.org"), TEXT(subject), TEXT("See you there."), TEXT("inbox"), 0, 20000, &unused));
}

/* What `other` tells of `k` when they meet: the highest version of it that it knows, if it knows one, and the birth that it noted. */
static void check_peer(kept *k, kept *other) {
  mr_version known = {k->id, 0};
  mr_born met = {k->id, {0}};
  size_t knows = mr_highest(&other->device, k->id, &known.counter) == MR_OK;
  MUST(mr_birth(&k->device, met.birth, MR_BIRTH, &len));
  MUST(mr_check_peer(&k->device, &known, knows, &met, 1));
  known.counter += 9;
  if (mr_check_peer(&k->device, &known, 1, &met, 1) != MR_PEER_OLD_COPY) exit((puts("an old copy isn't noticed"), 1));
}

/* `to` asks, and `from` gives record by record. Each frame is in its giver's file before it is handed out. */
static void sync_from(kept *to, kept *from) {
  uint64_t unused, stream;
  uint32_t outcome = MR_TOOK;
  check_peer(to, from);
  check_peer(from, to);
  MUST(mr_pull(&to->device, &unused));
  commit(to);
  MUST(mr_answer(&from->device, bytes, len, &stream));
  while (outcome != MR_FINISHED) {
    MUST(mr_next(&from->device, stream));
    commit(from);
    MUST(mr_receive(&to->device, bytes, len, &outcome));
  }
  commit(to);
}

static void story(kept *phone, kept *office) {
  mr_held head;
  mr_version unused;
  open_kept(phone);
  open_kept(office);
  create(phone, "lunch");
  create(phone, "coffee");
  commit(phone);
  announce(phone);
  sync_from(office, phone);
  announce(office);
  MUST(mr_head(&office->device, 0, &head));
  MUST(mr_edit(&office->device, &head.version, 1, TEXT("ann@example.org"), TEXT("lunch"), TEXT("Later."), TEXT("inbox"), MR_SEEN, 20000,
               &unused));
  commit(office);
  announce(office);
  close_kept(phone);
  close_kept(office);
}

/* ---- death and after */

/* Opens the file and asks for more: what was handed out is there, no version is given again, and nothing would be announced again. Says how
 * many versions it has given. */
static unsigned check(kept *k, unsigned handed_out, unsigned announced) {
  mr_told told;
  open_kept(k);
  if (k->announced < announced) exit((printf("%s has noted %u, and %u were announced\n", k->path, (unsigned)k->announced, announced), 1));
  create(k, "one more");
  MUST(mr_commit(&k->device));
  if (mr_told_at(&k->device, 0, &told) != MR_UNSETTLED) exit((puts("handed out before its acts were done"), 1));
  settle(k);
  MUST(mr_told_at(&k->device, 0, &told));
  if (told.version.counter <= handed_out) exit((printf("%s gave %u, and %u before\n", k->path, told.version.counter, handed_out), 1));
  close_kept(k);
  return told.version.counter - 1;
}

/* A run that is killed in its act of this number; 0 where it ended before. */
static int killed_in(long act, int halfway, kept *phone, kept *office) {
  int pipe_ends[2], status;
  unsigned told[4] = {0, 0, 0, 0};
  char what;
  unlink(phone->path);
  unlink(office->path);
  fflush(stdout);
  if (pipe(pipe_ends)) die("pipe");
  pid_t child = fork();
  if (child < 0) die("fork");
  if (child == 0) {
    acts_until_death = act;
    dies_halfway = halfway;
    told_to = pipe_ends[1];
    story(phone, office);
    _exit(0);
  }
  close(pipe_ends[1]);
  while (read(pipe_ends[0], &what, 1) == 1) told[(int)what]++;
  close(pipe_ends[0]);
  if (waitpid(child, &status, 0) != child) die("waitpid");
  if (!WIFSIGNALED(status) && status != 0) exit(1);
  unsigned of_phone = check(phone, told[0], told[2]), of_office = check(office, told[1], told[3]);
  if (!WIFSIGNALED(status))
    printf("to its end: the phone has given %u versions, the office %u; announced: %u changes and %u\n", of_phone, of_office, told[2], told[3]);
  return WIFSIGNALED(status);
}

int main(void) {
  char folder[] = "/tmp/mailrep-kept-XXXXXX", phone_path[64], office_path[64];
  long acts = 0;
  if (!mkdtemp(folder)) die("mkdtemp");
  snprintf(phone_path, sizeof phone_path, "%s/phone", folder);
  snprintf(office_path, sizeof office_path, "%s/office", folder);
  kept phone = {.id = 0, .path = phone_path}, office = {.id = 1, .path = office_path};
  while (killed_in(acts, 0, &phone, &office)) {
    killed_in(acts, 1, &phone, &office);
    acts++;
  }
  if (acts < 20) exit((printf("only %ld acts\n", acts), 1));
  puts("killed before and in each act: what was handed out is kept, and nothing is announced twice");
  unlink(phone_path);
  unlink(office_path);
  rmdir(folder);
  return 0;
}
