/* The example of the listing, by exos_call: a line for each record, as in logs/example.txt. Then the same records in one
 * replay, which must leave the same RAM and the same last answer. Then a module, which the writer makes of its items, and
 * whose bytes must stand in the RAM. Then how many bytes closes and links move. */
#include "exos.h"

#include <stdio.h>
#include <string.h>

static const uint8_t log_bytes[] = {
    8,  0, 0,  1, 0x42, 0x2B, 252,  253,  254, 255,          /* start: R 11,074, segments 252 to 255 */
    12, 0, 1,  0, 5,    0,    100,  0,                       /* open 5, status 0, n 100 */
    'V', 'I', 'D', 'E', 'O', ':',
    2,  0, 22, 0,                                            /* boundary */
    7,  0, 8,  0, 5,    98,   0,    0xAA, 0x55,              /* write 5 at 98 */
    7,  0, 6,  0, 5,    98,   0,    2,    0,                 /* read 5 at 98, 2 bytes */
    7,  0, 6,  0, 5,    99,   0,    2,    0,                 /* read 5 at 99, 2 bytes: one remains */
    3,  0, 3,  0, 5,                                         /* close 5 */
    2,  0, 22, 0                                             /* boundary */
};

static unsigned u16(const uint8_t *at) { return at[0] + 256u * at[1]; }
static unsigned long moved_in(const uint8_t *reply) { return u16(reply + 6) + 65536ul * u16(reply + 8); }

/* Channels 1, 2 and 3, of 100, 65,535 and 10 bytes, and what closes and links of them move. */
static const struct {
  const uint8_t *record;
  size_t length;
  unsigned answer;
  unsigned long moved;
} moves[] = {
#define RECORD(...) (const uint8_t[]){__VA_ARGS__}, sizeof((const uint8_t[]){__VA_ARGS__})
    {RECORD(0, 1, 0x42, 0x2B, 248, 249, 250, 251, 252, 253, 254, 255), EXOS_DONE, 0}, /* start */
    {RECORD(1, 0, 1, 0, 100, 0, 'V', 'I', 'D', 'E', 'O', ':'), EXOS_DONE, 0},         /* open 1: a record of 116 */
    {RECORD(1, 0, 2, 0, 255, 255, 'V', 'I', 'D', 'E', 'O', ':'), EXOS_DONE, 0},       /* open 2: of 65,551 */
    {RECORD(1, 0, 3, 0, 10, 0, 'V', 'I', 'D', 'E', 'O', ':'), EXOS_DONE, 0},          /* open 3: of 26 */
    {RECORD(21, 0, 0, 0, 'T', 'A', 'P', 'E'), EXOS_DONE, 0},                          /* link of no bytes: R stays */
    {RECORD(21, 0, 1, 0, 'D', 'I', 'S', 'K'), EXOS_DONE, 116 + 65551 + 26},           /* link of 1: T */
    {RECORD(21, 0, 1, 0, '1'), EXOS_NAME, 0},                                         /* refused */
    {RECORD(3, 0, 1), EXOS_DONE, 65551 + 26},                                         /* close 1: those after it */
    {RECORD(3, 0, 1), EXOS_CHANNEL, 0},                                               /* refused */
    {RECORD(3, 0, 3), EXOS_DONE, 0},                                                  /* close 3: the last */
    {RECORD(0, 0, 16), EXOS_DONE, 0},                                                 /* reset, closes all channels */
#undef RECORD
};

/* What a record gives: its line. Read, status and user load show the bytes. */
static void print_line(unsigned kind, const uint8_t *reply, const uint8_t *out) {
  unsigned b = u16(reply + 4);
  printf("%u %u %u %u", kind, u16(reply), u16(reply + 2), b);
  bool fills = kind == EXOS_KIND_READ || kind == EXOS_KIND_STATUS || kind == EXOS_KIND_USER_LOAD;
  if (u16(reply) == EXOS_DONE && b > 0 && fills) {
    putchar(' ');
    for (unsigned i = 0; i < b; i++) printf("%02x", out[i]);
  }
  putchar('\n');
}

int main(void) {
  static uint8_t image[EXOS_IMAGE_BYTES], ram[4 * EXOS_SEGMENT_BYTES], out[4096], reply[EXOS_REPLY_BYTES];
  static uint8_t ram_again[sizeof ram], out_again[sizeof out], reply_again[sizeof reply];

  for (size_t at = 0; at < sizeof log_bytes;) {
    size_t length = u16(log_bytes + at);
    const uint8_t *record = log_bytes + at + 2;
    if (!exos_call(image, sizeof image, ram, sizeof ram, record, length, out, sizeof out, reply, sizeof reply)) return 1;
    print_line(u16(record), reply, out);
    at += 2 + length;
  }

  /* A wrong length is told, and nothing changes. */
  if (exos_call(image, sizeof image - 1, ram, sizeof ram, log_bytes + 2, 8, out, sizeof out, reply, sizeof reply)) return 2;
  if (exos_replay(ram, sizeof ram, out, sizeof out, log_bytes, sizeof log_bytes, reply, sizeof reply - 1) != 0) return 3;

  size_t (*const replays[])(uint8_t *, size_t, uint8_t *, size_t, const uint8_t *, size_t, uint8_t *, size_t) = {
      exos_replay, exos_replay_tested};
  for (int i = 0; i < 2; i++) {
    memset(ram_again, 7, sizeof ram_again);
    if (replays[i](ram_again, sizeof ram_again, out_again, sizeof out_again, log_bytes, sizeof log_bytes, reply_again,
                   sizeof reply_again) != sizeof log_bytes)
      return 4;
    if (memcmp(ram, ram_again, sizeof ram) != 0) return 5;
    if (memcmp(out, out_again, sizeof out) != 0) return 6;
    if (memcmp(reply, reply_again, sizeof reply) != 0) return 7;
  }

  /* A start of four segments is refused where five are lent, and no later record finds tables. */
  static uint8_t more_ram[5 * EXOS_SEGMENT_BYTES];
  exos_replay(more_ram, sizeof more_ram, out, sizeof out, log_bytes, 10, reply, sizeof reply);
  if (u16(reply) != EXOS_START) return 8;
  exos_replay(more_ram, sizeof more_ram, out, sizeof out, log_bytes, sizeof log_bytes, reply, sizeof reply);
  if (u16(reply) != EXOS_TABLES) return 9;

  /* A module into page zero, from page 1, offset 200h on: the byte AAh, then the word 1234h + 4201h, and the end. */
  static uint8_t module[] = {EXOS_KIND_LOAD_MODULE, 0, 252, 1, 0x00, 0x02, 0x55, 0x41, 0x23, 0x4C};
  static const uint8_t placed[] = {0xAA, 0x35, 0x54};
  memcpy(ram_again + 0x200, placed, sizeof placed);
  exos_call(image, sizeof image, ram, sizeof ram, module, sizeof module, out, sizeof out, reply, sizeof reply);
  if (u16(reply) != EXOS_DONE || u16(reply + 2) != 0 || u16(reply + 4) != 4) return 10;
  if (memcmp(ram, ram_again, sizeof ram) != 0) return 11;

  /* Without its last byte it has no end; from the page's last byte on its word is outside. Neither stores a byte. */
  exos_call(image, sizeof image, ram, sizeof ram, module, sizeof module - 1, out, sizeof out, reply, sizeof reply);
  if (u16(reply) != EXOS_MODULE) return 12;
  module[4] = 0xFF, module[5] = 0x3F;
  exos_call(image, sizeof image, ram, sizeof ram, module, sizeof module, out, sizeof out, reply, sizeof reply);
  if (u16(reply) != EXOS_PAGE) return 13;
  if (memcmp(ram, ram_again, sizeof ram) != 0) return 14;

  /* The same module out of its items, at the front of a buffer whose last byte stays. */
  static const uint8_t items[] = {0, 0xAA, 0, 1, 0x34, 0x12};
  static uint8_t buffer[5], before[5], written[EXOS_WRITE_REPLY_BYTES];
  static const uint8_t done[EXOS_WRITE_REPLY_BYTES] = {EXOS_DONE, 0, 4};
  memset(buffer, 7, sizeof buffer);
  if (!exos_write_module(1, 0x200, items, sizeof items, buffer, sizeof buffer, written, sizeof written)) return 15;
  if (memcmp(written, done, sizeof done) != 0) return 16;
  if (memcmp(buffer, module + 6, 4) != 0 || buffer[4] != 7) return 17;

  /* A buffer a byte short, a page 4 and bytes that are no list of items leave it as it is. */
  memcpy(before, buffer, sizeof buffer);
  if (!exos_write_module(1, 0, items, sizeof items, buffer, 3, written, sizeof written)) return 18;
  if (u16(written) != EXOS_RANGE || written[2] != 0) return 19;
  if (!exos_write_module(4, 0, items, sizeof items, buffer, 3, written, sizeof written)) return 20;
  if (u16(written) != EXOS_PAGE || written[2] != 0) return 21;
  if (exos_write_module(1, 0, items, sizeof items - 1, buffer, sizeof buffer, written, sizeof written)) return 22;
  if (u16(written) != EXOS_PAGE || memcmp(before, buffer, sizeof buffer) != 0) return 23;

  static uint8_t tables[EXOS_IMAGE_BYTES], eight[8 * EXOS_SEGMENT_BYTES];
  for (size_t i = 0; i < sizeof moves / sizeof *moves; i++) {
    if (!exos_call(tables, sizeof tables, eight, sizeof eight, moves[i].record, moves[i].length, out, sizeof out, reply,
                   sizeof reply))
      return 24;
    if (u16(reply) != moves[i].answer) return 25;
    if (moved_in(reply) != moves[i].moved) return 26;
  }

  /* A replay reports what its last record moved: up to each of these, in one log. */
  static uint8_t log[256];
  size_t end = 0;
  for (size_t i = 0; i < sizeof moves / sizeof *moves; i++) {
    log[end] = (uint8_t)moves[i].length, log[end + 1] = 0;
    memcpy(log + end + 2, moves[i].record, moves[i].length);
    end += 2 + moves[i].length;
    if (exos_replay(eight, sizeof eight, out, sizeof out, log, end, reply, sizeof reply) != end) return 27;
    if (u16(reply) != moves[i].answer || moved_in(reply) != moves[i].moved) return 28;
  }
  return 0;
}
