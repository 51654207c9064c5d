/*
 * The four calls of the converter, for C and C++ programs on x86-64 (crates/meter/out/libmeter.a, by `rt lib` in crates/meter).
 *
 * `refusal` is 0 for success, or one of these numbers; `at` is the position, in words of the file:
 *
 *   no.  given when                                                                    position
 *    1   byte length odd or over 65,536                                                0
 *    2   words run out at a block start, or a block or raw contents pass the last word block start
 *    3   length below the table, 0B not exact, long form under 2 or not allowed,
 *        title without null                                                            block start
 *    4   a listed block or the end marker out of order                                 block start
 *    5   unit type, neither 945 nor 953                                                that word
 *    6   word 1 of 05, 07, 09, 0E or 10                                                that word
 *    7   sub-block id, length, or past its block                                       sub-block start
 *    8   any other checked word                                                        that word (BuffLength: word 6)
 *    9   a word after the end marker                                                   first such word
 *   10   label over 507 bytes (meter_sheet only)                                       0
 *   11   output under 1,024 bytes (meter_sheet), or under the slim length (meter_slim) 0
 *
 * A caller owes: file, label and output do not overlap, and nobody else writes them during a call; each pointer is good for its
 * length; with length 0 any pointer may stand.
 *
 * A caller gets: no state is kept and nothing is allocated, so calls may run side by side; a refusal writes no byte of the output, a
 * success only the bytes it counts.
 *
 * Stack: 8,192 bytes are enough for a call. This is measured and not proved (x86-64, 2026-11-16, over 26,744 files, with the older kit
 * rattle-kit-5b-plain; not measured again): meter_check used 1,520 bytes at most, meter_title 1,552, meter_sheet 3,296, meter_slim
 * 2,096; with lazy binding, where the dynamic linker looks up memcpy and memset during the first calls, 6,248.
 */
#ifndef METER_H
#define METER_H

#include <stdbool.h>
#include <stddef.h>
#include <stdint.h>

#ifdef __cplusplus
extern "C" {
#endif

/* rises when a declaration, an answer or a refusal number changes; 1: the 945 and the 953, with requests T-01 to T-03 */
#define METER_H_VERSION 1

/* the most bytes of a file */
#define METER_FILE_MAX 65536

/* the most bytes of a label (meter_sheet) */
#define METER_LABEL_MAX 507

/* the least output of meter_sheet, in bytes; no line of a sheet has more, its end counted */
#define METER_OUTPUT_MIN 1024

/* the values of `refusal`; the table above says when each is given */
#define METER_OK 0
#define METER_REFUSED_FILE_LENGTH 1
#define METER_REFUSED_TRUNCATED 2
#define METER_REFUSED_BLOCK_LENGTH 3 /* or a title without null */
#define METER_REFUSED_BLOCK_ORDER 4
#define METER_REFUSED_UNIT_TYPE 5
#define METER_REFUSED_LAYOUT 6 /* word 1 of a block that has it fixed */
#define METER_REFUSED_SUB_BLOCK 7
#define METER_REFUSED_VALUE 8
#define METER_REFUSED_AFTER_END 9
#define METER_REFUSED_LABEL 10
#define METER_REFUSED_OUTPUT 11

/* a start in `starts` where the block is absent, or the file refused */
#define METER_ABSENT 65535

typedef struct meter_check_reply {
    uint8_t refusal;    /* 0: accepted */
    uint8_t function;   /* 1 level meter, 2 1/1 octave, 3 1/3 octave (945), 4 dose meter (953); 0 if refused */
    uint16_t starts[9]; /* start words of 01, 02, 03, 04, 05, 07, 0E or 10, 09 and 0F; 65535 for an absent block */
    uint32_t at;        /* the refusal's position; 0 if accepted */
} meter_check_reply;

typedef struct meter_title_reply {
    bool from_file; /* the text is a part of the file; else it is the whole label */
    size_t at;      /* the byte of the file at which it starts; 0 for the label */
    size_t len;     /* its length in bytes */
} meter_title_reply;

typedef struct meter_sheet_reply {
    uint8_t refusal; /* 0: written */
    bool finished;   /* these lines are the last ones, or there were none left; false if refused */
    uint32_t at;     /* the refusal's position; 0 if written */
    uint32_t lines;  /* lines written */
    size_t bytes;    /* bytes written */
} meter_sheet_reply;

typedef struct meter_slim_reply {
    uint8_t refusal; /* 0: written */
    uint32_t at;     /* the refusal's position; 0 if written */
    size_t bytes;    /* the byte length of the slim copy; 0 if refused */
} meter_slim_reply;

/* Whether a file is accepted: its function and the starts of its blocks, or its first fault. */
meter_check_reply meter_check(const uint8_t *file, size_t file_len);

/* Where the title stands: the text of the file before its first null, or the label where that is empty or the file refused. */
meter_title_reply meter_title(const uint8_t *file, size_t file_len, const uint8_t *label, size_t label_len);

/*
 * Writes lines n, n + 1, .. of the sheet, as many whole ones as fit. The first call asks from line 0 on, the next from n + lines on,
 * until one is finished. A head line whose text holds a comma or a double quote stands between double quotes, those within it doubled,
 * as RFC 4180 has it; such a line has 1,023 bytes at most.
 *
 * An answer that is neither refused nor finished has written one line at least (proved: `goes_on`), and a sheet has 200,000 lines at
 * most, so asking again from n + lines ends.
 */
meter_sheet_reply meter_sheet(const uint8_t *file, size_t file_len, const uint8_t *label, size_t label_len, uint32_t n, uint8_t *out, size_t out_len);

/*
 * Writes the slim copy. It is never longer than its file (proved: `copy_no_longer`), so an output of file_len bytes is always enough,
 * and one of METER_FILE_MAX bytes is enough for every file.
 */
meter_slim_reply meter_slim(const uint8_t *file, size_t file_len, uint8_t *out, size_t out_len);

#ifdef __cplusplus
}
#endif

#endif
