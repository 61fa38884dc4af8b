/* Two kept devices that sync over a socket: two processes, each with a device in a file of its own. They tell each other who they are, one
 * asks and the other answers, and then the other way round. The first time the connection breaks. It prints socket.expected.
 *
 *   tools/c-library build/c
 *   gcc examples/c/socket.c -I build/c -L build/c -l:libmailrep.a -o socket && ./socket
 */
#define _GNU_SOURCE
#include <fcntl.h>
#include <mailrep.h>
#include <stdio.h>
#include <stdlib.h>
#include <string.h>
#include <sys/file.h>
#include <sys/random.h>
#include <sys/socket.h>
#include <sys/stat.h>
#include <sys/wait.h>
#include <unistd.h>

/* The most bytes of a frame; and how many records are given, or taken, in one commit. */
#define ROOM ((size_t)8388612)
#define BATCH 64
#define TEXT(x) (const uint8_t *)(x), strlen(x)

/* A device, its file, and the folder that this is in. */
typedef struct kept {
  uint16_t id;
  const char *folder, *path;
  int fd;
  mr_device device;
} kept;

static uint8_t frame[ROOM];
static size_t len;

#define MUST(call) must((call), #call)
static void must(int32_t code, const char *call) {
  if (code != MR_OK) {
    fprintf(stderr, "%s: 0x%x, %s\n", call, (unsigned)code, mr_code_text(code));
    exit(1);
  }
}

static void die(const char *what) {
  perror(what);
  exit(1);
}

/* ---- the file */

static int do_act(kept *k, size_t place, const mr_act *act) {
  if (act->kind == MR_CUT) return ftruncate(k->fd, (off_t)act->at) == 0;
  if (act->kind == MR_SYNC) return fdatasync(k->fd) == 0;
  uint8_t *bytes = malloc(act->len + 1);
  size_t bytes_len;
  if (!bytes) die("malloc");
  MUST(mr_act_bytes(&k->device, place, bytes, act->len, &bytes_len));
  int well = pwrite(k->fd, bytes, bytes_len, (off_t)act->at) == (ssize_t)bytes_len;
  free(bytes);
  return well;
}

static void settle(kept *k) {
  mr_act act;
  int well = 1;
  for (size_t i = 0; well && mr_act_at(&k->device, i, &act) == MR_OK; i++) well = do_act(k, i, &act);
  MUST(mr_settle(&k->device, well));
  if (!well) die(k->path);
}

static void commit(kept *k) {
  MUST(mr_commit(&k->device));
  settle(k);
}

/* Where the file is: the machine's id, and the file's inode. */
static void mark_of(int fd, uint8_t mark[MR_MARK]) {
  struct stat about;
  memset(mark, 0, MR_MARK);
  FILE *id = fopen("/etc/machine-id", "r");
  if (!id || fstat(fd, &about)) die("/etc/machine-id");
  for (int i = 0; i < 16; i++)
    if (fscanf(id, "%2hhx", &mark[i]) != 1) die("/etc/machine-id");
  fclose(id);
  uint64_t inode = about.st_ino;
  memcpy(mark + 16, &inode, sizeof inode);
}

/* So that the file's name outlives a crash: what was made in a folder is sure to be there once the folder is synced. */
static void sync_folder(const char *folder) {
  int fd = open(folder, O_RDONLY | O_DIRECTORY | O_CLOEXEC);
  if (fd < 0 || fsync(fd)) die(folder);
  close(fd);
}

/* Opens the device of the file, or begins it where the file is empty. */
static void open_kept(kept *k) {
  uint8_t mark[MR_MARK], birth[MR_BIRTH];
  struct stat about;
  k->device = (mr_device){0};
  k->fd = open(k->path, O_RDWR | O_CREAT | O_CLOEXEC, 0600);
  if (k->fd < 0 || flock(k->fd, LOCK_EX | LOCK_NB) || fdatasync(k->fd) || fstat(k->fd, &about)) die(k->path);
  mark_of(k->fd, mark);
  if (about.st_size == 0) {
    if (getrandom(birth, MR_BIRTH, 0) != MR_BIRTH) die("getrandom");
    MUST(mr_kept_begin(&k->device, k->id, TEXT("all"), 1000000, birth, MR_BIRTH, mark, MR_MARK));
    settle(k);
    sync_folder(k->folder);
    return;
  }
  uint8_t *file = malloc((size_t)about.st_size);
  if (!file || pread(k->fd, file, (size_t)about.st_size, 0) != (ssize_t)about.st_size) die(k->path);
  MUST(mr_kept_open(&k->device, file, (size_t)about.st_size, mark, MR_MARK, birth, 0));
  free(file);
  settle(k);
}

static void close_kept(kept *k) {
  mr_close(&k->device);
  close(k->fd);
}

/* ---- the socket */

static int send_bytes(int socket, const uint8_t *bytes, size_t count) {
  for (ssize_t done; count > 0; bytes += done, count -= (size_t)done)
    if ((done = send(socket, bytes, count, MSG_NOSIGNAL)) <= 0) return 0;
  return 1;
}

static int read_bytes(int socket, uint8_t *to, size_t count) {
  for (ssize_t done; count > 0; to += done, count -= (size_t)done)
    if ((done = read(socket, to, count)) <= 0) return 0;
  return 1;
}

/* A frame, whose first four bytes tell how long it is; it has to be of this kind, and to claim to come from the device at the other end. */
static int read_frame(int socket, uint32_t kind, uint32_t peer) {
  mr_claimed claim;
  if (!read_bytes(socket, frame, 4)) return 0;
  MUST(mr_frame_len(frame, 4, &len));
  if (!read_bytes(socket, frame + 4, len - 4)) return 0;
  MUST(mr_frame_claim(frame, len, &claim));
  return claim.kind == kind && claim.author == peer;
}

/* ---- who is there */

/* What a program notes of a device that it meets, and tells it: the births that the two have met of each other's ids. */
static int met_before(kept *k, uint32_t peer, mr_born *met) {
  size_t notes;
  MUST(mr_notes(&k->device, &notes));
  while (notes-- > 0) {
    MUST(mr_note_at(&k->device, notes, (uint8_t *)met, sizeof *met, &len));
    if (met->author == peer) return 1;
  }
  return 0;
}

/* Tells the other side who this is, and what it knows of that one; and looks whether what it hears goes with this device. Gives the other's
 * id, or -1 where nothing may be sent to it or taken of it. */
static int64_t meet(kept *k, int socket) {
  struct hello { mr_born self; mr_version known; mr_born met; } here, there;
  memset(&here, 0, sizeof here);
  here.self.author = k->id;
  MUST(mr_birth(&k->device, here.self.birth, MR_BIRTH, &len));
  if (!send_bytes(socket, (uint8_t *)&here.self, sizeof here.self) || !read_bytes(socket, (uint8_t *)&there.self, sizeof there.self)) return -1;
  uint32_t peer = there.self.author;
  here.known.author = peer;
  here.met = there.self;
  if (mr_highest(&k->device, peer, &here.known.counter) != MR_OK) here.known.counter = 0;
  if (!met_before(k, peer, &here.met)) {
    MUST(mr_note(&k->device, (uint8_t *)&here.met, sizeof here.met));
    commit(k);
  }
  if (!send_bytes(socket, (uint8_t *)&here.known, sizeof here.known + sizeof here.met)) return -1;
  if (!read_bytes(socket, (uint8_t *)&there.known, sizeof there.known + sizeof there.met)) return -1;
  int32_t code = mr_check_peer(&k->device, &there.known, there.known.counter > 0, &there.met, 1);
  return code == MR_OK && memcmp(here.met.birth, there.self.birth, MR_BIRTH) == 0 ? (int64_t)peer : -1;
}

/* ---- a sync */

/* Asks, and takes all that the other side has. A batch of records goes into one commit. Where the connection breaks what was taken stays, and
 * the next request says so. */
static int ask(kept *k, int socket, uint32_t peer) {
  uint64_t unused;
  uint32_t outcome = MR_TOOK;
  mr_told told;
  MUST(mr_pull(&k->device, &unused));
  commit(k);
  MUST(mr_told_at(&k->device, 0, &told));
  MUST(mr_told_frame(&k->device, 0, frame, ROOM, &len));
  int well = send_bytes(socket, frame, len);
  for (size_t taken = 1; well && outcome != MR_FINISHED; taken++) {
    well = read_frame(socket, MR_RECORD, peer);
    if (well) MUST(mr_receive(&k->device, frame, len, &outcome));
    if (taken % BATCH == 0) commit(k);
  }
  if (!well) MUST(mr_cut_in(&k->device, told.number));
  commit(k);
  return well;
}

/* Answers a request, and is done where the stream is closed: the next that follows its last record is refused by NO_STREAM. It hangs up
 * after so many records, as a connection does that breaks. */
static int answer(kept *k, int socket, uint32_t peer, size_t most) {
  uint64_t stream;
  int32_t code = MR_OK;
  if (!read_frame(socket, MR_ASK, peer)) return 0;
  MUST(mr_answer(&k->device, frame, len, &stream));
  for (size_t given = 0; code == MR_OK;) {
    mr_told told;
    for (int i = 0; i < BATCH && code == MR_OK; i++) code = mr_next(&k->device, stream);
    if (code != MR_OK && code != MR_REFUSED_NO_STREAM) must(code, "mr_next");
    commit(k);
    for (size_t i = 0; mr_told_at(&k->device, i, &told) == MR_OK; i++, given++) {
      MUST(mr_told_frame(&k->device, i, frame, ROOM, &len));
      if (given < most && send_bytes(socket, frame, len)) continue;
      if (code == MR_OK) MUST(mr_cut_out(&k->device, stream));
      commit(k);
      return 0;
    }
  }
  return 1;
}

/* One side of the connection. The one that called asks first. */
static int talk(kept *k, int socket, int calls, size_t most) {
  int64_t peer = meet(k, socket);
  if (peer < 0) return 0;
  return calls ? ask(k, socket, (uint32_t)peer) && answer(k, socket, (uint32_t)peer, most)
               : answer(k, socket, (uint32_t)peer, most) && ask(k, socket, (uint32_t)peer);
}

/* ---- two processes */

static void create(kept *k, const char *subject) {
  mr_version unused;
  MUST(mr_create(&k->device, TEXT("ann@example.org"), TEXT(subject), TEXT("See you there."), TEXT("inbox"), 0, 20000, &unused));
}

static size_t heads(kept *k) {
  mr_count count;
  open_kept(k);
  MUST(mr_counts(&k->device, &count));
  close_kept(k);
  return count.heads;
}

/* The office calls the phone, which hangs up after so many records. */
static void sync_once(kept *phone, kept *office, size_t most) {
  int ends[2], status;
  fflush(stdout);
  if (socketpair(AF_UNIX, SOCK_STREAM | SOCK_CLOEXEC, 0, ends)) die("socketpair");
  pid_t child = fork();
  if (child < 0) die("fork");
  kept *mine = child == 0 ? office : phone;
  close(ends[child == 0 ? 0 : 1]);
  open_kept(mine);
  int well = talk(mine, ends[child == 0 ? 1 : 0], child == 0, most);
  close_kept(mine);
  if (child == 0) _exit(!well);
  close(ends[0]);
  if (waitpid(child, &status, 0) != child || !WIFEXITED(status)) die("waitpid");
  printf("%s: the phone holds %zu, the office %zu\n", well && status == 0 ? "in step" : "broken off", heads(phone), heads(office));
}

int main(void) {
  char folder[] = "/tmp/mailrep-socket-XXXXXX", phone_path[64], office_path[64];
  if (!mkdtemp(folder)) die("mkdtemp");
  snprintf(phone_path, sizeof phone_path, "%s/phone", folder);
  snprintf(office_path, sizeof office_path, "%s/office", folder);
  kept phone = {.id = 0, .folder = folder, .path = phone_path}, office = {.id = 1, .folder = folder, .path = office_path};
  open_kept(&phone);
  for (int i = 0; i < 200; i++) create(&phone, "lunch");
  commit(&phone);
  close_kept(&phone);
  open_kept(&office);
  for (int i = 0; i < 3; i++) create(&office, "minutes");
  commit(&office);
  close_kept(&office);
  sync_once(&phone, &office, 100);
  sync_once(&phone, &office, 1000);
  sync_once(&phone, &office, 1000);
  unlink(phone_path);
  unlink(office_path);
  rmdir(folder);
  return 0;
}
