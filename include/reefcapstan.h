/* The bench: plays a schedule file and writes a log of every entry; writes schedule files from texts, and texts from schedule files.
 *
 * Link with target/staticlib/libreefcapstan.a, which `tools/archive` makes. The functions are pure: they keep nothing between
 * calls, allocate nothing, and need less than 8 KB of stack.
 */
#ifndef REEFCAPSTAN_H
#define REEFCAPSTAN_H

#include <stddef.h>
#include <stdint.h>

#ifdef __cplusplus
extern "C" {
#endif

/* The longest schedule file, and the log that is long enough for any file. */
#define REEFCAPSTAN_FILE_MAX 65536
#define REEFCAPSTAN_LOG_MAX 64020

/* The longest text that the lister writes. */
#define REEFCAPSTAN_TEXT_MAX 144055

/* The log's length in bytes for a number of entries: a head of 12, and 12 for each entry. */
#define REEFCAPSTAN_LOG_LENGTH(entries) (12u + 12u * (size_t)(entries))

/* The mark of an answered load, byte 3 of its record. With 1 no store has changed the word since the load's step 1, so that the value is the
 * word's at the moment of the answer; with 2 one has. Every other record has mark 0.
 */
#define REEFCAPSTAN_MARK_CURRENT 1
#define REEFCAPSTAN_MARK_NOT_CURRENT 2

/* Plays the schedule file `file` of `file_len` bytes.
 *
 * Both buffers stay the caller's. The file is only read. Of the log, an accepted file's run writes the first
 * REEFCAPSTAN_LOG_LENGTH(entries) bytes and leaves the rest as it was; a refused file's run writes nothing at all. The two
 * buffers must not overlap. A pointer may not be NULL, not even for a length of 0.
 *
 * Returns 0 for an accepted file, else number + 256 * block + 65,536 * place:
 *
 *   1   the length is not a multiple of 512, or outside 512 to 65,536 (block 0)
 *   2   a block's check differs
 *   3   a block carries another place
 *   16  N in block 0 is not 1 to 16
 *   17  S in block 0 is not 2 to 4,294,967,295
 *   18  the block count in block 0 is not that of the file
 *   19  a stray byte in block 0: one that must be zero and isn't; the place is that of the first, 3 or 18 to 509
 *   5   count above 42, kind not 1 to 4, or a stray nonzero byte in a later block
 *   6   the lent log is too short for the file's entries (block 0)
 *
 * The first found is given, in the order 1; block 0 by 2, 3, 16, 17, 18, 19; each later block in turn by 2, 3, 5; then 6. The place is
 * counted from 0 within the block, and is 0 with every number but 19. 4 is no longer given; 16 to 19 stand in its place.
 */
uint32_t reefcapstan_run(const uint8_t *file, size_t file_len, uint8_t *log, size_t log_len);

/* What the functions return, taken apart. Look at the number first. Where a file is refused, by reefcapstan_run or reefcapstan_list, take
 * its block and its place by the next two; told / 256 is the block no more, since with 19 the place stands above it.
 */
#define REEFCAPSTAN_NUMBER(told) ((unsigned)((told) % 256u))
#define REEFCAPSTAN_BLOCK(told) ((unsigned)((told) / 256u % 256u))
#define REEFCAPSTAN_PLACE(told) ((unsigned)((told) / 65536u))

/* The detail of reefcapstan_write, and of reefcapstan_list where its number is 0 or 27. */
#define REEFCAPSTAN_DETAIL(told) ((uint64_t)(told) / 256u)

/* Writes the schedule file of the text `text` of `text_len` bytes into `out`.
 *
 * Line one is `H N S V`, and each further line `L p`, `S p value`, `V p` or `T p` (a step): decimal without leading zeros, one space
 * between fields, one newline after each line, the last too, and nothing else. Processes are 0 to 255, V and values below 2^64; N and S
 * may have any number of digits. REEFCAPSTAN_FILE_MAX bytes are enough for any file.
 *
 * Returns number + 256 * detail, and writes nothing at all unless the number is 0:
 *
 *   0   done; the detail is the length of the file, and `out` keeps what it held past it
 *   25  a line outside this form; the detail is the first such line, from 1 (line 1 for an empty text; from 2^56 on, 2^56 - 1)
 *   16  N not 1 to 16
 *   17  S not 2 to 4,294,967,295
 *   26  more than 5,334 entries
 *   27  `out` is too short for the file
 *
 * With 16, 17, 26 and 27 the detail is 0.
 *
 * The first found is given, in this order over the whole text. The buffers stay the caller's and must not overlap, and a pointer may not
 * be NULL, not even for a length of 0.
 */
uint64_t reefcapstan_write(const uint8_t *text, size_t text_len, uint8_t *out, size_t out_len);

/* Writes the text of the schedule file `file` of `file_len` bytes into `out`: its start and its entries in order, however they are spread
 * over its blocks. reefcapstan_write makes a file with the same start and entries of it. REEFCAPSTAN_TEXT_MAX bytes are enough for any
 * text.
 *
 * Returns number + 256 * detail, and writes nothing at all unless the number is 0:
 *
 *   0   done; the detail is the length of the text, and `out` keeps what it held past it
 *   27  `out` is too short for the text; the detail is 0
 *
 * or, where reefcapstan_run refuses the file by another number than 6, what that returns: number + 256 * block + 65,536 * place.
 *
 * The buffers stay the caller's and must not overlap, and a pointer may not be NULL, not even for a length of 0.
 */
uint64_t reefcapstan_list(const uint8_t *file, size_t file_len, uint8_t *out, size_t out_len);

#ifdef __cplusplus
}
#endif

#endif
