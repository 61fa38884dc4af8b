/* mailrep.h: devices that keep one mailbox in step, for C99, C++11 and later.
 *
 * A device is an mr_device, two words that belong to you. mr_open and mr_replay make a plain one, mr_kept_begin and mr_kept_open one that
 * is kept, and mr_close gives back what it holds. Most other calls that take one are events or readers. An event does all of what it
 * says, or answers why not and leaves the device as it was. A reader changes nothing.
 *
 * A plain device is a log that your program writes down. A kept one has a file that your program alone reads and writes: the device says
 * what is to be done to it, act by act, and shows and hands out nothing before that is done ("kept devices", below).
 *
 * What the calls ask of you, since C can't check it:
 *   - A new mr_device is all zeros, which is a closed one: mr_device d = {0};
 *   - An open one may be moved in memory, and must not be used as two: after a copy use one of them alone.
 *   - One call at a time for each device, readers too. Any thread may make it, one after the other; two devices have nothing in
 *     common. Order the calls of several threads by a lock, or by starting and joining them. No call is made by a signal handler,
 *     or by the forked child of a process that has threads.
 *   - No pointer is NULL, also where a length is 0, and each points to as many items as its length says. What a call reads and
 *     what it writes must not overlap, nor must two things that it writes.
 *   - Frames reach the other device as they are, or not at all. They may be lost, repeated, delayed or mixed.
 *   - The id of a device is never given to another one, not even after the device is lost: two that share one would give one
 *     version to two messages.
 *   - malloc, realloc and free come from one allocator, and align as C asks.
 *
 * Who owns what: the library keeps no pointer of yours beyond a call, and hands out none of its own. Texts are UTF-8 with a length
 * and no zero byte; a body is any bytes.
 *
 * A call that writes bytes or numbers takes a buffer, how many items it has room for, and a word for the length. Where there is
 * something, the word gets its full length. If that is more than there is room for, the answer is MR_TOO_SMALL and the buffer is as
 * it was: call again with more room. At any other error buffer and word are as they were, and so is each other variable of yours.
 *
 * Every answer is MR_OK, which is 0, or one of the other codes, which are never 0: mr_code_text says each in words. The comment of a
 * call lists its codes; where several hold it answers the first of them. The calls that open a device, each event, mr_commit, mr_note, and
 * mr_event, mr_conflicts, mr_heads_of, mr_sessions, mr_streams, mr_highest, mr_check_peer, mr_told_frame and mr_frame_claim may also answer
 * MR_NO_MEMORY, and then nothing has changed; the other calls want no memory.
 */
#ifndef MAILREP_H
#define MAILREP_H

#include <stddef.h>
#include <stdint.h>

#ifdef __cplusplus
extern "C" {
#endif

/* The interface that this header is of. Its upper half changes where programs have to be built anew: where a call, a struct or the
 * meaning of a number changes or goes. Its lower half grows where calls or codes are added. A program runs with a library whose
 * mr_abi() has the same upper half and a lower half that is not below the header's. */
#define MR_ABI UINT32_C(0x00010004)

/* The release that this header is of. */
#define MR_VERSION "0.1.0"

/* What a call answers. Below 0x100 stand the codes of this interface; the others are a family, by its upper byte, and the number
 * that docs/API.md has in that family's table. */
#define MR_CODES(CODE) \
  CODE(MR_OK, 0x000, "done") \
  CODE(MR_NO_MEMORY, 0x001, "out of memory") \
  CODE(MR_CLOSED, 0x002, "the device is closed") \
  CODE(MR_IN_USE, 0x003, "the device is open already") \
  CODE(MR_NOT_TEXT, 0x004, "a text is not UTF-8") \
  CODE(MR_TOO_SMALL, 0x005, "the buffer is too small") \
  CODE(MR_NOT_THERE, 0x006, "nothing is there") \
  CODE(MR_BEHIND, 0x007, "bytes stand behind the frame") \
  CODE(MR_OTHER_FRAME, 0x008, "the frame is of another kind") \
  CODE(MR_UNSETTLED, 0x009, "events wait for a commit, or acts are left to be done") \
  CODE(MR_FAILED, 0x00a, "an act failed: open the file again") \
  CODE(MR_OTHER_DEVICE, 0x00b, "the call is for a device of the other kind") \
  CODE(MR_TOO_LARGE, 0x00c, "the event or the file is too large") \
  CODE(MR_BAD_LENGTH, 0x00d, "a birth has 16 bytes, and a mark 32") \
  CODE(MR_NO_CONFLICT, 0x00e, "the item has no heads that differ") \
  /* no such id or version: VersionFault */ \
  CODE(MR_VERSION_NO_SUCH_AUTHOR, 0x101, "an id is 0 to 63") \
  CODE(MR_VERSION_BAD_VERSION, 0x102, "a counter is 1 to 1,000,000") \
  /* the parts make no message: MessageFault */ \
  CODE(MR_MESSAGE_FROM_TOO_LONG, 0x201, "a sender has at most 254 bytes") \
  CODE(MR_MESSAGE_SUBJECT_TOO_LONG, 0x202, "a subject has at most 998 bytes") \
  CODE(MR_MESSAGE_BODY_TOO_LONG, 0x203, "a body has at most 65,536 bytes") \
  CODE(MR_MESSAGE_BAD_LABEL, 0x204, "a label is 1 to 32 bytes of a-z, 0-9 and -") \
  CODE(MR_MESSAGE_TOO_MANY_LABELS, 0x205, "a message has at most 16 labels") \
  CODE(MR_MESSAGE_BAD_FLAGS, 0x206, "flags are 0 to 31") \
  /* the text is no filter: FilterFault */ \
  CODE(MR_FILTER_BAD_FILTER, 0x301, "the text is no filter") \
  CODE(MR_FILTER_TOO_MANY_CLAUSES, 0x302, "a filter has at most 16 clauses") \
  CODE(MR_FILTER_TOO_MANY_LABELS, 0x303, "a clause has at most 8 labels") \
  /* the bytes are no frame: WireFault */ \
  CODE(MR_WIRE_TRUNCATED, 0x401, "the frame continues beyond the bytes") \
  CODE(MR_WIRE_TOO_LONG, 0x402, "the frame is too long") \
  CODE(MR_WIRE_BAD_FORMAT, 0x403, "no such format of frames") \
  CODE(MR_WIRE_BAD_KIND, 0x404, "no such kind of frame") \
  CODE(MR_WIRE_BAD_BODY, 0x405, "the bytes are none of a frame of that kind") \
  /* the bytes are no event: EventFault */ \
  CODE(MR_EVENT_TRUNCATED, 0x501, "the event continues beyond the bytes") \
  CODE(MR_EVENT_TOO_LONG, 0x502, "the event is too long") \
  CODE(MR_EVENT_BAD_FORM, 0x503, "no such form of events") \
  CODE(MR_EVENT_BAD_KIND, 0x504, "no such kind of event") \
  CODE(MR_EVENT_BAD_BODY, 0x505, "the bytes are none of an event of that kind") \
  /* no device comes of the log: ReplayFault */ \
  CODE(MR_REPLAY_BAD_LIMIT, 0x601, "an event limit is 1 to 1,000,000") \
  CODE(MR_REPLAY_REFUSED, 0x602, "an event of the log is refused") \
  /* the device refuses the event: Refusal */ \
  CODE(MR_REFUSED_RETIRED, 0x701, "the device has retired") \
  CODE(MR_REFUSED_NO_BASE, 0x702, "the edit names no base") \
  CODE(MR_REFUSED_NOT_HELD, 0x703, "a version is not held") \
  CODE(MR_REFUSED_MIXED_ITEMS, 0x704, "the bases are versions of several items") \
  CODE(MR_REFUSED_OWN_HEAD_LEFT, 0x705, "an own version of the item is held and not among the bases") \
  CODE(MR_REFUSED_TOO_MANY_HOLES, 0x706, "a vector of the knowledge would have too many holes") \
  CODE(MR_REFUSED_TOO_MANY_ITEMS, 0x707, "the knowledge would list too many items") \
  CODE(MR_REFUSED_LOG_FULL, 0x708, "the log is full") \
  CODE(MR_REFUSED_TOO_MANY_SESSIONS, 0x709, "eight sessions are open") \
  CODE(MR_REFUSED_TOO_MANY_STREAMS, 0x70a, "eight streams are open") \
  CODE(MR_REFUSED_NOT_FOR_ME, 0x70b, "the record is for another device") \
  CODE(MR_REFUSED_NO_SESSION, 0x70c, "no session of that number is open") \
  CODE(MR_REFUSED_NOT_START, 0x70d, "the session waits for a start") \
  CODE(MR_REFUSED_OTHER_STREAM, 0x70e, "the session takes another stream") \
  CODE(MR_REFUSED_REPEATED, 0x70f, "the session has taken the record") \
  CODE(MR_REFUSED_GAP, 0x710, "the session has not taken the record before") \
  CODE(MR_REFUSED_NOT_A_RECORD, 0x711, "the frame is no record") \
  CODE(MR_REFUSED_NO_STREAM, 0x712, "no stream of that number is open") \
  CODE(MR_REFUSED_OWN_ASK, 0x713, "the request is the device's own") \
  CODE(MR_REFUSED_NOT_PUSHED_OUT, 0x714, "the receipt is for no push-out that is held") \
  CODE(MR_REFUSED_PUSH_OUTS_LEFT, 0x715, "push-outs are left") \
  CODE(MR_REFUSED_FORGED, 0x716, "no device gave the record") \
  /* the file isn't opened: OpenFault, or the fault of another family that it carries */ \
  CODE(MR_OPEN_NO_REPLICA, 0x803, "no device was begun in the file") \
  CODE(MR_OPEN_NOT_EMPTY, 0x804, "the file has entries already") \
  CODE(MR_OPEN_BAD_ENTRY, 0x805, "an entry of the file is none") \
  CODE(MR_OPEN_MISPLACED, 0x806, "an entry of the file doesn't belong there") \
  CODE(MR_OPEN_OTHER_COUNTER, 0x807, "an entry of the file has another's counter") \
  CODE(MR_OPEN_TOO_MANY_EVENTS, 0x808, "the file has more events than a device takes") \
  CODE(MR_OPEN_COPIED, 0x809, "the file was begun at another place: it was copied or restored") \
  CODE(MR_OPEN_OTHER_BIRTH, 0x80a, "the file was begun at another time") \
  /* the file is no journal: JournalFault */ \
  CODE(MR_JOURNAL_FAILED, 0x901, "no memory to note what is to be done to the file") \
  CODE(MR_JOURNAL_NOT_A_JOURNAL, 0x902, "the file doesn't begin as a journal") \
  CODE(MR_JOURNAL_OTHER_FORMAT, 0x903, "the file is a journal of another format") \
  CODE(MR_JOURNAL_DAMAGED, 0x904, "the file is damaged as no crash leaves it") \
  CODE(MR_JOURNAL_TOO_LARGE, 0x905, "the file would be too large") \
  /* the heads of an item make no message together: MergeFault */ \
  CODE(MR_MERGE_CONTENTS_DIFFER, 0xa01, "the heads differ in more than labels and flags") \
  CODE(MR_MERGE_TOO_MANY_LABELS, 0xa02, "more than 16 labels together") \
  /* what another device tells doesn't go with this one: PeerFault */ \
  CODE(MR_PEER_OLD_COPY, 0xb01, "an old copy: the other device knows more versions than this one gave") \
  CODE(MR_PEER_OTHER_BIRTH, 0xb02, "the other device knows another file of this id")

#define MR_CODE_NAME(name, number, text) name = number,
enum { MR_CODES(MR_CODE_NAME) };
#undef MR_CODE_NAME

/* The families: code >> 8. */
enum {
  MR_FAMILY_VERSION = 1,
  MR_FAMILY_MESSAGE = 2,
  MR_FAMILY_FILTER = 3,
  MR_FAMILY_WIRE = 4,
  MR_FAMILY_EVENT = 5,
  MR_FAMILY_REPLAY = 6,
  MR_FAMILY_REFUSED = 7,
  MR_FAMILY_OPEN = 8,
  MR_FAMILY_JOURNAL = 9,
  MR_FAMILY_MERGE = 10,
  MR_FAMILY_PEER = 11
};

/* What mr_receive tells: what the record tells was new, or known; or it was the last one, and the session is closed. */
enum { MR_TOOK = 0, MR_KNOWN = 1, MR_FINISHED = 2 };

/* The parts of a message. */
enum { MR_FROM = 0, MR_SUBJECT = 1, MR_BODY = 2 };

/* The kinds of frames: a request, a record of a stream, a receipt. */
enum { MR_ASK = 0, MR_RECORD = 1, MR_RECEIPT = 2 };

/* What is to be done to the file of a kept device. */
enum { MR_WRITE = 0, MR_CUT = 1, MR_SYNC = 2 };

/* What a kept device hands out: the version of a create or an edit; the session of a pull, whose request is its frame; the record of a
 * next; the receipt of a vouch. */
enum { MR_ISSUED = 0, MR_ASKED = 1, MR_GAVE = 2, MR_VOUCHED = 3 };

/* How many bytes a birth and a mark have. */
enum { MR_BIRTH = 16, MR_MARK = 32 };

/* The flags of a message, to be joined by |. */
enum { MR_SEEN = 1, MR_ANSWERED = 2, MR_FLAGGED = 4, MR_DRAFT = 8, MR_DELETED = 16 };

/* The most sessions, and the most streams, that are open at a time. */
enum { MR_MAX_OPEN = 8 };

/* A device: all zeros is closed. Its words are the library's. */
typedef struct mr_device {
  void *inner;
  uint64_t live;
} mr_device;

/* A version of a message: its author's id, 0 to 63, and its number among that author's, 1 to 1,000,000. It names it on all
 * devices, for ever. A message through all its versions is an item, named by its first version. */
typedef struct mr_version {
  uint32_t author;
  uint32_t counter;
} mr_version;

/* A version that is held. */
typedef struct mr_held {
  mr_version item;
  mr_version version;
} mr_held;

/* A change: the version entered the device, 1, or left it, 0. */
typedef struct mr_changed {
  uint32_t entered;
  mr_version item;
  mr_version version;
} mr_changed;

/* How much there is. */
typedef struct mr_count {
  size_t heads;     /* messages that the filter selects */
  size_t push_outs; /* messages written here that it doesn't, held until another device has them */
  size_t changes;   /* of the heads, since the device was opened for the first time */
  size_t events;    /* of the log */
} mr_count;

/* Where a message belongs. */
typedef struct mr_placed {
  size_t labels;  /* how many it has, at most 16 */
  uint32_t flags; /* MR_SEEN and so on */
  uint32_t day;   /* days since 1970-01-01 */
} mr_placed;

/* What a frame is, and the id of the device that it claims to come from. */
typedef struct mr_claimed {
  uint32_t kind; /* MR_ASK, MR_RECORD, MR_RECEIPT */
  uint32_t author;
} mr_claimed;

/* What is to be done to the file of a kept device. */
typedef struct mr_act {
  uint32_t kind; /* MR_WRITE, MR_CUT, MR_SYNC */
  uint64_t at;   /* where to write, which is no later than the file's end; or the length to cut to */
  size_t len;    /* how many bytes to write, by mr_act_bytes */
} mr_act;

/* What a kept device hands out. */
typedef struct mr_told {
  uint32_t kind;      /* MR_ISSUED, MR_ASKED, MR_GAVE, MR_VOUCHED */
  uint64_t number;    /* of MR_ASKED the session's, and else 0 */
  mr_version version; /* of MR_ISSUED the version, and else zeros */
} mr_told;

/* A file of a device, as another device knows it: the device's id, and what was drawn when the file was begun. */
typedef struct mr_born {
  uint32_t author;
  uint8_t birth[16]; /* MR_BIRTH bytes */
} mr_born;

/* ---- life */

/* The interface of the library: compare it with MR_ABI, as is said there. */
uint32_t mr_abi(void);

/* Opens a device to which nothing has happened. id: 0 to 63, given to no other device. filter: what it keeps, as "all" or
 * "label:inbox & !flag:deleted | flag:flagged". event_limit: 1 to 1,000,000 events, and one retire past them.
 * MR_IN_USE, MR_VERSION_NO_SUCH_AUTHOR, MR_NOT_TEXT, MR_FILTER_.., MR_REPLAY_BAD_LIMIT. */
int32_t mr_open(mr_device *device, uint16_t id, const uint8_t *filter, size_t filter_len, uint32_t event_limit);

/* Opens a device that has taken all events of a log: the bytes of mr_event for each place, one behind the other. With the id, the
 * filter and the limit of the device whose log it was it is that device again; its frame is empty. It costs each event's work.
 * MR_IN_USE, MR_VERSION_NO_SUCH_AUTHOR, MR_NOT_TEXT, MR_FILTER_.., MR_EVENT_.., MR_REPLAY_BAD_LIMIT, MR_REPLAY_REFUSED. */
int32_t mr_replay(mr_device *device, uint16_t id, const uint8_t *filter, size_t filter_len, uint32_t event_limit,
                  const uint8_t *log, size_t log_len);

/* Closes the device, and gives back all that it holds; a closed one stays so. What was not written down is gone, and of a kept one what
 * was not committed. */
void mr_close(mr_device *device);

/* ---- kept devices
 *
 * A file of its own, which nothing but your program touches, and of which one device at a time is open (lock it). The loop:
 *
 *   mr_create(&phone, .., &unused);                        any number of events; what they show and give is held back
 *   mr_commit(&phone);                                     what is to be done so that the file has them
 *   for (size_t i = 0; mr_act_at(&phone, i, &act) == MR_OK; i++) ..   pwrite, ftruncate or fdatasync, in this order
 *   mr_settle(&phone, all_went_well);
 *   for (size_t i = 0; mr_told_at(&phone, i, &told) == MR_OK; i++) .. a version, or a frame by mr_told_frame
 *
 * Killed at any moment once it is begun, in whichever act and however that write is torn, your program finds a file with all that it
 * committed before the last commit, and of the last one all or nothing; mr_kept_open takes it. What was handed out is in the file.
 *
 * Of its events mr_answer and mr_receive, which show nothing of it to others, tell at once what they tell of a plain device. mr_create,
 * mr_edit, mr_merge and mr_pull write nothing to their last parameter: mr_told_at tells the version or the session, and mr_told_frame gives
 * the frame of mr_pull, mr_next and mr_vouch; mr_frame is a plain device's alone. The readers, and mr_merge, which looks at the heads,
 * answer MR_UNSETTLED while an event or a note waits for a commit or an act is left. Once an act has failed, every call but those that
 * open or close answers MR_FAILED: close the device, read the file, open it again. An event may answer MR_TOO_LARGE, of more than
 * 8,388,608 bytes.
 *
 * birth: 16 random bytes, drawn for this file alone. mark: 32 bytes that tell where the file is, as of the machine's id and the file's
 * inode, so that a copy, and a backup that was restored as another file, which would give versions again, are refused. To open a file
 * takes the mark that it was begun with, and nothing else does: zeros too are a mark, which a copy has as well, and they open no file that
 * was begun with another. So a file that is moved to another machine or disk is opened by the mark of its old place alone. */

/* Begins a device in a file that has no byte, which the call can't see: its acts, which are to be done first, erase what is in the file. So
 * lock the file and look at its length before, and answer MR_OPEN_NOT_EMPTY yourself. id, filter and event_limit are those of mr_open.
 * MR_IN_USE, MR_VERSION_NO_SUCH_AUTHOR, MR_NOT_TEXT, MR_FILTER_.., MR_BAD_LENGTH, MR_REPLAY_BAD_LIMIT, MR_OPEN_BAD_ENTRY of a filter
 * whose text is too long, MR_JOURNAL_FAILED. */
int32_t mr_kept_begin(mr_device *device, uint16_t id, const uint8_t *filter, size_t filter_len, uint32_t event_limit,
                      const uint8_t *birth, size_t birth_len, const uint8_t *mark, size_t mark_len);

/* Opens a device of the bytes of its file, which was synced before it was read. What a crash left behind is cut off, and sessions and
 * streams that were open are closed: these acts are to be done first. Where birth_len is not 0, the file has to be of that birth. Once the
 * acts of mr_kept_begin are done, a file that later ones left, in whichever of them, is never refused, but for memory. An empty one, or one
 * whose begin was cut off, may be refused by MR_OPEN_NO_REPLICA: empty it and begin.
 * MR_IN_USE, MR_BAD_LENGTH, MR_JOURNAL_.., MR_OPEN_.., MR_FILTER_.., MR_REPLAY_..; MR_FAILED or MR_TOO_LARGE of what closes. */
int32_t mr_kept_open(mr_device *device, const uint8_t *file, size_t file_len, const uint8_t *mark, size_t mark_len,
                     const uint8_t *birth, size_t birth_len);

/* Has the file take all events and notes that wait: its acts are to be done then. What the last commit handed out is let go of.
 * MR_CLOSED, MR_FAILED also where there is no memory to note an act, MR_OTHER_DEVICE, MR_UNSETTLED while acts are left, MR_TOO_LARGE. */
int32_t mr_commit(mr_device *device);

/* An act that is left to be done, by its place in their order, from 0. MR_CLOSED, MR_FAILED, MR_OTHER_DEVICE, MR_NOT_THERE. */
int32_t mr_act_at(mr_device *device, size_t place, mr_act *act);

/* The bytes that an act writes. MR_CLOSED, MR_FAILED, MR_OTHER_DEVICE, MR_NOT_THERE also where it writes none, MR_TOO_SMALL. */
int32_t mr_act_bytes(mr_device *device, size_t place, uint8_t *to, size_t room, size_t *len);

/* All acts are done; or, where went_well is 0, one of them failed, and so has the device. MR_CLOSED, MR_FAILED, MR_OTHER_DEVICE. */
int32_t mr_settle(mr_device *device, uint32_t went_well);

/* What the last commit hands out, by its place in the order of the events, from 0. Read it before the next event or note.
 * MR_CLOSED, MR_FAILED, MR_OTHER_DEVICE, MR_UNSETTLED, MR_NOT_THERE. */
int32_t mr_told_at(mr_device *device, size_t place, mr_told *told);

/* Its frame, and none (length 0) of MR_ISSUED. MR_CLOSED, MR_FAILED, MR_OTHER_DEVICE, MR_UNSETTLED, MR_NOT_THERE, MR_TOO_SMALL. */
int32_t mr_told_frame(mr_device *device, size_t place, uint8_t *to, size_t room, size_t *len);

/* Has a note wait: bytes of your own, which mean nothing here, as how many changes your program has announced. The next commit keeps it in
 * one batch with all events that wait then, all or nothing, behind the notes that waited before it; each mr_kept_open from then on
 * finds it. MR_CLOSED, MR_FAILED, MR_OTHER_DEVICE, MR_TOO_LARGE of 2^32 bytes or more. */
int32_t mr_note(mr_device *device, const uint8_t *bytes, size_t bytes_len);

/* How many notes mr_kept_open found in the file: of all commits, and none that was written since. A device that was begun has found none.
 * MR_CLOSED, MR_FAILED, MR_OTHER_DEVICE. */
int32_t mr_notes(mr_device *device, size_t *count);

/* The bytes of one of these, by its place in the order in which they were written, from 0; so that of the newest is the count less one.
 * MR_CLOSED, MR_FAILED, MR_OTHER_DEVICE, MR_NOT_THERE, MR_TOO_SMALL. */
int32_t mr_note_at(mr_device *device, size_t place, uint8_t *to, size_t room, size_t *len);

/* What was drawn when the file was begun: MR_BIRTH bytes. MR_CLOSED, MR_FAILED, MR_OTHER_DEVICE, MR_UNSETTLED, MR_TOO_SMALL. */
int32_t mr_birth(mr_device *device, uint8_t *to, size_t room, size_t *len);

/* Whether what another device tells goes with this one: ask before you send it anything or take anything of it. highest: the highest
 * versions that the other knows, one of each author that it tells of, by mr_highest there; only that of this device's id counts. births:
 * the files that the other has met, each with its device's id, as the program there has noted them at each meeting. MR_PEER_OLD_COPY
 * where the other knows a version of this id that this device hasn't given: so this is an older state of the device, which would give
 * that version to another message. MR_PEER_OTHER_BIRTH where it has met another file of this id. Then send and take nothing, and begin
 * anew under another id. MR_OK proves nothing of the other device: an old copy that meets only those who know no more of it than it does
 * isn't noticed. MR_CLOSED, MR_FAILED, MR_OTHER_DEVICE, MR_UNSETTLED, MR_VERSION_.. of a version, MR_VERSION_NO_SUCH_AUTHOR of a file,
 * MR_PEER_OLD_COPY, MR_PEER_OTHER_BIRTH. */
int32_t mr_check_peer(mr_device *device, const mr_version *highest, size_t highest_len, const mr_born *births, size_t births_len);

/* ---- events: each answers MR_CLOSED first; at an error nothing has changed */

/* Writes a message, and gives its version. labels: at most 16, with commas between, or empty. MR_NOT_TEXT, MR_MESSAGE_..,
 * MR_REFUSED_ RETIRED, LOG_FULL, TOO_MANY_HOLES, TOO_MANY_ITEMS. */
int32_t mr_create(mr_device *device, const uint8_t *from, size_t from_len, const uint8_t *subject, size_t subject_len,
                  const uint8_t *body, size_t body_len, const uint8_t *labels, size_t labels_len, uint8_t flags, uint16_t day,
                  mr_version *version);

/* Puts a message in the place of held versions of one item, of one or of all that conflict, and gives its version. MR_NOT_TEXT,
 * MR_MESSAGE_.., MR_VERSION_.. of a base, MR_REFUSED_ RETIRED, NO_BASE, NOT_HELD, MIXED_ITEMS, OWN_HEAD_LEFT, LOG_FULL,
 * TOO_MANY_HOLES, TOO_MANY_ITEMS. */
int32_t mr_edit(mr_device *device, const mr_version *bases, size_t bases_len, const uint8_t *from, size_t from_len,
                const uint8_t *subject, size_t subject_len, const uint8_t *body, size_t body_len, const uint8_t *labels,
                size_t labels_len, uint8_t flags, uint16_t day, mr_version *version);

/* Merges the heads of an item that differ in labels and flags alone, by an edit of all of them, and gives its version. The last version that
 * came to the device and that all of them replace decides: a label or a flag of it stays if each head has it, another one comes if some
 * head has it; and the message counts as deleted only where each head says so. A head that is deleted and has no label has no say
 * beside others. Where the contents differ nothing is merged: show the heads to the user. Merge on the device that sees the conflict.
 * Of a kept device first MR_FAILED, MR_UNSETTLED: so one merge to a commit. MR_VERSION_.. of the item, MR_MERGE_CONTENTS_DIFFER,
 * MR_MERGE_TOO_MANY_LABELS, MR_NO_CONFLICT where the heads say the same (and stay several), or there is one or none, MR_REFUSED_ RETIRED,
 * OWN_HEAD_LEFT while a push-out of the item is held, LOG_FULL, TOO_MANY_HOLES, TOO_MANY_ITEMS. */
int32_t mr_merge(mr_device *device, mr_version item, mr_version *version);

/* Writes, asks and takes nothing more; it still answers. MR_REFUSED_ RETIRED, PUSH_OUTS_LEFT while it keeps messages for others. */
int32_t mr_retire(mr_device *device);

/* Asks for what the device lacks: gives the number of a session that waits for it, and the request, by mr_frame.
 * MR_REFUSED_ RETIRED, TOO_MANY_SESSIONS, LOG_FULL, TOO_MANY_HOLES. */
int32_t mr_pull(mr_device *device, uint64_t *session);

/* Opens a stream for a request, and gives its number. MR_WIRE_.., MR_BEHIND, MR_OTHER_FRAME, MR_REFUSED_ OWN_ASK, TOO_MANY_STREAMS,
 * LOG_FULL, TOO_MANY_HOLES. */
int32_t mr_answer(mr_device *device, const uint8_t *frame, size_t frame_len, uint64_t *stream);

/* Gives the stream's next record, by mr_frame; with the last one the stream is closed. MR_REFUSED_ NO_STREAM, LOG_FULL. */
int32_t mr_next(mr_device *device, uint64_t stream);

/* Takes a record: MR_TOOK, MR_KNOWN or MR_FINISHED, which closes the session. MR_WIRE_.., MR_BEHIND, MR_REFUSED_ RETIRED,
 * NOT_A_RECORD, NOT_FOR_ME, NO_SESSION, NOT_START, OTHER_STREAM, REPEATED, GAP, FORGED, LOG_FULL, TOO_MANY_HOLES, TOO_MANY_ITEMS. */
int32_t mr_receive(mr_device *device, const uint8_t *frame, size_t frame_len, uint32_t *outcome);

/* Gives up a session; what it took stays. MR_REFUSED_ RETIRED, NO_SESSION, LOG_FULL. */
int32_t mr_cut_in(mr_device *device, uint64_t session);

/* Gives up a stream. MR_REFUSED_ NO_STREAM, LOG_FULL. */
int32_t mr_cut_out(mr_device *device, uint64_t stream);

/* Gives a receipt for a head, by mr_frame. MR_VERSION_.., MR_REFUSED_ RETIRED, NOT_HELD, LOG_FULL. */
int32_t mr_vouch(mr_device *device, mr_version version);

/* Lets go of the push-outs that a receipt frees. MR_WIRE_.., MR_BEHIND, MR_OTHER_FRAME, MR_REFUSED_ RETIRED, NOT_PUSHED_OUT,
 * LOG_FULL. */
int32_t mr_release(mr_device *device, const uint8_t *frame, size_t frame_len);

/* ---- readers: each answers MR_CLOSED first, and but for mr_frame of a kept device MR_FAILED and MR_UNSETTLED; none changes the device */

/* The frame that the last event of a plain device gave that was not refused: of mr_pull, mr_next and mr_vouch, and else none (length
 * 0). It has at most 8,388,612 bytes. MR_FAILED or else MR_OTHER_DEVICE of each kept device, MR_TOO_SMALL. */
int32_t mr_frame(mr_device *device, uint8_t *to, size_t room, size_t *len);

/* How much there is. */
int32_t mr_counts(mr_device *device, mr_count *counts);

/* A head or a push-out, by its place in version order, from 0. MR_NOT_THERE. */
int32_t mr_head(mr_device *device, size_t place, mr_held *head);
int32_t mr_push_out(mr_device *device, size_t place, mr_held *push_out);

/* The items that have two or more heads, in rising order: they are in conflict until an edit of all their heads, as mr_merge makes one.
 * MR_TOO_SMALL. */
int32_t mr_conflicts(mr_device *device, mr_version *to, size_t room, size_t *len);

/* The versions of an item that are heads, in version order. MR_VERSION_.. of the item, MR_TOO_SMALL. */
int32_t mr_heads_of(mr_device *device, mr_version item, mr_version *to, size_t room, size_t *len);

/* A change of the heads, by its place in order of time, from 0: keep how many you have seen, and read on from there. MR_NOT_THERE. */
int32_t mr_change(mr_device *device, size_t place, mr_changed *change);

/* An event of the log, by its place, as the bytes to be kept for mr_replay. MR_NOT_THERE, MR_EVENT_TOO_LONG, MR_TOO_SMALL. */
int32_t mr_event(mr_device *device, size_t place, uint8_t *to, size_t room, size_t *len);

/* A part of a held message: MR_FROM, MR_SUBJECT or MR_BODY. MR_VERSION_.., MR_NOT_THERE also of another part, MR_TOO_SMALL. */
int32_t mr_part(mr_device *device, mr_version version, uint32_t part, uint8_t *to, size_t room, size_t *len);

/* Where a held message belongs. MR_VERSION_.., MR_NOT_THERE. */
int32_t mr_card(mr_device *device, mr_version version, mr_placed *card);

/* A label of a held message, by its place in rising order, from 0. MR_VERSION_.., MR_NOT_THERE, MR_TOO_SMALL. */
int32_t mr_label(mr_device *device, mr_version version, size_t place, uint8_t *to, size_t room, size_t *len);

/* Whether a version of an item is known, held or not: 1 or 0. MR_VERSION_.. of the item, then of the version. */
int32_t mr_knows(mr_device *device, mr_version item, mr_version version, uint32_t *is_known);

/* The highest counter of an author's versions that the device knows, of whatever item: tell it that author when you meet it, for
 * mr_check_peer there. Of the device's own id it is that of the last version that it gave. It costs all that is known.
 * MR_VERSION_NO_SUCH_AUTHOR, MR_REFUSED_TOO_MANY_HOLES, MR_NOT_THERE where it knows none. */
int32_t mr_highest(mr_device *device, uint32_t author, uint32_t *counter);

/* Whether it has retired: 1 or 0. */
int32_t mr_is_retired(mr_device *device, uint32_t *is_retired);

/* The numbers of the open sessions and streams, rising: at most MR_MAX_OPEN each. MR_TOO_SMALL. */
int32_t mr_sessions(mr_device *device, uint64_t *to, size_t room, size_t *len);
int32_t mr_streams(mr_device *device, uint64_t *to, size_t room, size_t *len);

/* ---- frames in a stream of bytes: these take no device */

/* How many bytes the frame takes that begins with these, by its first four, which count too. MR_WIRE_TRUNCATED: fewer than four are
 * there. MR_WIRE_TOO_LONG: give up the connection. */
int32_t mr_frame_len(const uint8_t *bytes, size_t bytes_len, size_t *len);

/* What a frame is, and who it claims to come from: compare that with who is at the other end before a device takes it.
 * MR_WIRE_.., MR_BEHIND. */
int32_t mr_frame_claim(const uint8_t *frame, size_t frame_len, mr_claimed *claim);

/* ---- codes in words */

/* A code in words; never NULL. It is for people: a program compares codes. */
static inline const char *mr_code_text(int32_t code) {
#define MR_CODE_CASE(name, number, text) case name: return text;
  switch (code) {
    MR_CODES(MR_CODE_CASE)
    default: return "no such code";
  }
#undef MR_CODE_CASE
}

#ifdef __cplusplus
}
#endif

#endif
