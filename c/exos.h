/* The proved kernel and the proved writer of modules over bytes, for C and C++: the library of crates/exos, x86-64.
 * `rt lib` in crates/exos builds it as crates/exos/out/libexos.a, which is linked like any object:
 * cc -o program program.c libexos.a
 *
 * The library is written in Rattle, a systems language in which every function is proved to meet its contract. The
 * contracts, the definition that they cite and the proofs are in antt, the language of Rattle's proof checker (.antt files).
 *
 * Every buffer belongs to the caller, before, in and after a call. The library keeps no pointer and no state of its own,
 * and takes no memory but stack: of this a call took at most 12,856 bytes and a replay 11,752, found by paint below the
 * caller's frame over the logs of logs/ and 18,000 records drawn at random, and the writer of modules 160, over 20,000
 * lists. No theorem bounds it: leave it 16 KB.
 * A pointer is never null, even where its length is 0, and no two buffers of a call overlap. Nothing is asked of the bytes
 * in them: any image, any RAM, any record, any items. Numbers of two, four and eight bytes are little-endian.
 */
#ifndef EXOS_H
#define EXOS_H

#include <stdbool.h>
#include <stddef.h>
#include <stdint.h>

#ifdef __cplusplus
extern "C" {
#endif

/* The image of the tables. All zero is the image before any start.
 *
 *   offset  bytes    what
 *        0      1    how many segments the list has
 *        1     32    their numbers
 *       33     32    the class of each: 1 free, 2 user, 3 system, 4 device, 5 shared; 0 page zero
 *       65      1    how many segments the system chain has
 *       66     32    the chain, as rows of the list
 *       98      2    the user boundary
 *      100      2    R
 *      102      2    the cold R
 *      104      1    how many channels are open
 *      105   32*5    a channel, in line order: number, device, unit, then n in 2 bytes
 *      265      1    how many devices there are
 *      266  16*30    a device, in linking order: name in 28 bytes, its length, 1 where it is enabled
 *      746     28    the default name
 *      774      1    its length
 *      775      1    its unit
 *
 * Unused rows and bytes are 0.
 */
#define EXOS_IMAGE_BYTES 776

/* A reply: the answer's number, a and b, two bytes each; then, in four bytes, how many bytes of channels' records the call
 * moved: a close that is done the lengths (16 + n) of all records after the closed one, a link that is done those of all
 * records where m is above 0; any other call, and any refusal, 0. */
#define EXOS_REPLY_BYTES 10

/* A reply of the writer of modules: the answer's number, two bytes, and the bytes written, eight. */
#define EXOS_WRITE_REPLY_BYTES 10

/* An item of a list for the writer of modules. */
#define EXOS_ITEM_BYTES 3

/* A segment of RAM. */
#define EXOS_SEGMENT_BYTES 16384

/* The longest event record, without the two bytes of its length. */
#define EXOS_RECORD_BYTES 4096

/* The kinds of event records, with the body of each, and a and b when it is done. Numbers are one byte, u8, or two, u16.
 * A list, a name, data or a stream is the rest of the body: its bytes alone. n is the length of a channel's buffer, m of
 * a device's RAM; flags are bit 4 for channels, 5 for devices too, 6 for user segments.
 *
 * Read gives the bytes that remain from the offset on, up to the length: b says how many, 0 at or past the end. Write,
 * user store and user load do not stop short.
 *
 * Load module stores the items of a stream at a location counter. page (0 to 3) and offset (0 to 16,384, past the end) are
 * where the counter starts; its value is page * 16,384 + offset. Bytes go to the segment at the offset: the page enters
 * words' values alone. The stream, at most 4,090 bytes in a record, is read from bit 7 of its first byte on, each field's
 * highest bit first. Sums drop a carry out of 16 bits.
 *
 *   0, 8 bits       stores a byte at the offset, which grows by 1
 *   100, 16 bits    stores a word, low byte first, with the counter's value added; the offset grows by 2
 *   10100, 2 bits   sets the page, and leaves the offset
 *   10101           sets the page back to the one of the body
 *   1011, 16 bits   is added to the counter's value, which must stay in its page
 *   110             ends the module, with zeros up to the end of that byte; b counts up to there, and what follows is not
 *                   looked at
 *   111             is illegal
 *
 * A module that is refused stores nothing. */
enum exos_kind {
  EXOS_KIND_START = 256,            /* R u16, list (segments, u8 each)            segments, R */
  EXOS_KIND_RESET = 0,              /* flags u8                                   0, 0 */
  EXOS_KIND_OPEN = 1,               /* channel u8, driver status u8, n u16, name  device, unit */
  EXOS_KIND_CLOSE = 3,              /* channel u8                                 0, 0 */
  EXOS_KIND_READ = 6,               /* channel u8, offset u16, length u16         0, bytes given */
  EXOS_KIND_WRITE = 8,              /* channel u8, offset u16, data               0, length */
  EXOS_KIND_DEFAULT = 19,           /* unit u8, name                              0, 0 */
  EXOS_KIND_STATUS = 20,            /* none                                       0, 5 */
  EXOS_KIND_LINK = 21,              /* m u16, name                                device, new R */
  EXOS_KIND_BOUNDARY = 22,          /* none                                       last chain segment, EXOS boundary */
  EXOS_KIND_SET_USER_BOUNDARY = 23, /* user boundary u16                          0, 0 */
  EXOS_KIND_ALLOCATE = 24,          /* caller u8 (0 user, 1 device)               segment, 16,384 */
  EXOS_KIND_FREE = 25,              /* caller u8, segment u8                      0, 0 */
  EXOS_KIND_USER_STORE = 257,       /* segment u8, offset u16, data               0, length */
  EXOS_KIND_USER_LOAD = 258,        /* segment u8, offset u16, length u16         0, length */
  EXOS_KIND_LOAD_MODULE = 30        /* segment u8, page u8, offset u16, stream    0, bytes used */
};

/* The answers' numbers. 0 and 17 are grants, the others refusals, with a and b 0 but for EXOS_DRIVER. Where several are
 * due the lowest is given; of a module's items the first at fault decides, at one item in the order 19, 20, 13, 14. */
enum exos_answer {
  EXOS_DONE = 0,
  EXOS_TABLES = 1,    /* not for start: tables not good, or RAM length wrong */
  EXOS_CALL = 2,      /* kind unknown; body too short or too long; caller not 0 or 1; a module's start past its range */
  EXOS_CHANNEL = 3,   /* 255, or not open (open: 255 only) */
  EXOS_EXISTS = 4,    /* open: already open */
  EXOS_NAME = 5,      /* no name by 01's grammar */
  EXOS_DEVICE = 6,    /* open: no enabled device so named */
  EXOS_DRIVER = 7,    /* driver status not 0; a is that status */
  EXOS_FULL = 8,      /* 32 channels or 16 devices already */
  EXOS_ROOM = 9,      /* no room for the channel or the device */
  EXOS_SEGMENT = 10,  /* nothing to allocate */
  EXOS_OWNER = 11,    /* segment not the caller's to free, store, load or put a module in */
  EXOS_BOUNDARY = 12, /* nothing shared, or value above the EXOS boundary */
  EXOS_RANGE = 13,    /* write, user store, user load: offset + length past the end; read, status, user load: lent output
                         too short for what would be given; load module: a store above the user boundary; write module:
                         buffer too short */
  EXOS_GUARD = 14,    /* store touches page zero 30h to 5Bh, save 3Dh and 3Eh */
  EXOS_FLAGS = 15,    /* a bit other than 4, 5, 6 */
  EXOS_START = 16,    /* list, R or RAM length wrong */
  EXOS_SHARED = 17,   /* allocate gave a shared segment, b is the user boundary */
  EXOS_MODULE = 19,   /* load module: an illegal item, a stream that runs out, or padding not zero */
  EXOS_PAGE = 20      /* load module: a move or store outside the page; write module: also a page above 3 or a start
                         past its range */
};

/* One call, on the image of the tables.
 *
 *   image   the tables, before and after: EXOS_IMAGE_BYTES, read, and written where the call is done
 *   ram     the RAM, segment by segment in the order of the list: EXOS_SEGMENT_BYTES for each segment of the tables (of
 *           a start's list), read and written; another length is answered with EXOS_TABLES (EXOS_START)
 *   record  the event record without its length: kind in 2 bytes, then the body; 2 to EXOS_RECORD_BYTES, read
 *   out     the output that is lent: any length, its first b bytes written by read, status and user load
 *   reply   the answer and the bytes moved: EXOS_REPLY_BYTES, written
 *
 * True where the call was made. False, and nothing changed, where the length of the image, the record or the reply is
 * none of the above.
 *
 * The promise that is proved: Called, in crates/exos/specs/Definition/Call.antt.
 */
bool exos_call(uint8_t *image, size_t image_len, uint8_t *ram, size_t ram_len, const uint8_t *record, size_t record_len,
               uint8_t *out, size_t out_len, uint8_t *reply, size_t reply_len);

/* The module of a list of items, written into a buffer: a relocatable module as EXOS_KIND_LOAD_MODULE reads it.
 *
 *   page     the page where the counter starts, 0 to 3
 *   offset   the offset where it starts, 0 to 16,384
 *   items    any number of items, read: three bytes each, a tag and a value of two bytes. Tags are 0 byte, 1 word, 2 set
 *            page, 3 restore and 4 move; a byte's value is at most 255, a restore's 0
 *   buffer   any length; the module is written to its front, and what is behind it stays
 *   reply    EXOS_WRITE_REPLY_BYTES, written: the answer's number, two bytes, and the bytes written, eight
 *
 * True where the items are a list. The answer is EXOS_DONE; EXOS_PAGE for a page above 3, a start that load module would
 * answer with EXOS_CALL, or an item that it would answer with EXOS_PAGE; or else EXOS_RANGE for a buffer that is too
 * short. A refusal leaves every byte of the buffer, and has 0 bytes written. False, and nothing changed, where the items
 * are no such list, or the length of the reply is another. A record has room for 4,090 bytes of module, and load module
 * looks at no more than 65,535; longer ones are written all the same.
 *
 * The promise that is proved: WritesModule, in crates/exos/specs/Definition/Modules.antt.
 */
bool exos_write_module(uint8_t page, uint16_t offset, const uint8_t *items, size_t items_len, uint8_t *buffer,
                       size_t buffer_len, uint8_t *reply, size_t reply_len);

/* Every whole event record at the front of a log, one after the other, from the tables before any start; up to the log's
 * end, a cut record or a bad length.
 *
 *   ram       all of it is lent to each start (the listing program lends what a start's list asks for): a start of fewer
 *             or more segments than are lent is answered with EXOS_START, and what follows, where no start was done
 *             before, with EXOS_TABLES
 *   out       as above
 *   log       records, each with its length: any length, read
 *   reply     the last record's answer, and the bytes that its call moved, no sum (done, 0 and 0, and none moved where
 *             there is no record): EXOS_REPLY_BYTES, written
 *
 * The bytes of the records. 0, and nothing changed, where the length of the reply is another.
 *
 * exos_replay tests tables until they are good and then holds them. exos_replay_tested tests them for each record, as
 * exos_call does. Both leave the same.
 *
 * The promise that is proved: Replays, in crates/exos/specs/Definition/Replays.antt.
 */
size_t exos_replay(uint8_t *ram, size_t ram_len, uint8_t *out, size_t out_len, const uint8_t *log, size_t log_len,
                   uint8_t *reply, size_t reply_len);
size_t exos_replay_tested(uint8_t *ram, size_t ram_len, uint8_t *out, size_t out_len, const uint8_t *log, size_t log_len,
                          uint8_t *reply, size_t reply_len);

#ifdef __cplusplus
}
#endif

#endif
