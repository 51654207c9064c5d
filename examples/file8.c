/* Document 01's checked file 8 given to the four calls, and what they answer. */
#include "meter.h"

#include <stdio.h>
#include <string.h>

/* the layout of the structs, tested as this is compiled */
#define SIZE(call, bytes) typedef char call##_size[sizeof(meter_##call##_reply) == (bytes) ? 1 : -1]
#define FIELD(call, name, byte) typedef char call##_##name[offsetof(meter_##call##_reply, name) == (byte) ? 1 : -1]

SIZE(check, 24);
FIELD(check, refusal, 0);
FIELD(check, function, 1);
FIELD(check, starts, 2);
FIELD(check, at, 20);

SIZE(title, 24);
FIELD(title, from_file, 0);
FIELD(title, at, 8);
FIELD(title, len, 16);

SIZE(sheet, 24);
FIELD(sheet, refusal, 0);
FIELD(sheet, finished, 1);
FIELD(sheet, at, 4);
FIELD(sheet, lines, 8);
FIELD(sheet, bytes, 16);

SIZE(slim, 16);
FIELD(slim, refusal, 0);
FIELD(slim, at, 4);
FIELD(slim, bytes, 8);

#define WORDS 78

static const uint16_t words[WORDS] = {
    0x0C01, 0x5542, 0x4646, 0x0031, 0, 0, 0, 0, 0, 0, 0, 0,                          /* 01: name BUFF1 */
    0x0602, 1234, 945, 105, 0, 0,                                                    /* 02: number, unit type, version */
    0x0403, 0x6148, 0x6C6C, 0x0000,                                                  /* 03: title Hall */
    0x1704, 0, 0, 1, 0, 0, 0, 0, 0, 0, 0, 0, 0, 0, 0, 0, 0, 0, 0, 0, 0, 0, 0,        /* 04: function 1 */
    0x1405, 0x0307, 0x0606, 0, 2, 4, 0, 0, 0x0606, 0, 3, 0, 0, 0, 0x0606, 0, 1, 1, 0, 0, /* 05: filters A C Lin, buffer codes 4 0 1 */
    0x080F, 1, 0, 0, 0, 0, 8, 0,                                                     /* 0F: step 1 s 0 ms, BuffLength 8 */
    634, 701, 0xFFFB, 698,                                                           /* contents */
    0xFFFF,                                                                          /* end marker */
};

int main(void) {
    const char *label = "label";
    size_t label_len = strlen(label);
    uint8_t file[2 * WORDS];
    uint8_t out[METER_OUTPUT_MIN];
    int i;

    for (i = 0; i < WORDS; i++) {
        file[2 * i] = (uint8_t)(words[i] % 256);
        file[2 * i + 1] = (uint8_t)(words[i] / 256);
    }

    meter_check_reply check = meter_check(file, sizeof file);
    printf("check: refusal %u at %u, function %u, starts", (unsigned)check.refusal, (unsigned)check.at, (unsigned)check.function);
    for (i = 0; i < 9; i++) {
        printf(" %u", (unsigned)check.starts[i]);
    }
    printf("\n");

    meter_title_reply title = meter_title(file, sizeof file, (const uint8_t *)label, label_len);
    const uint8_t *text = title.from_file ? file : (const uint8_t *)label;
    printf("title: %s, %zu bytes from byte %zu on: ", title.from_file ? "in the file" : "the label", title.len, title.at);
    fwrite(text + title.at, 1, title.len, stdout);
    printf("\n");

    meter_sheet_reply sheet = meter_sheet(file, sizeof file, (const uint8_t *)label, label_len, 0, out, sizeof out);
    printf("sheet: refusal %u at %u, %u lines, %zu bytes, %s\n", (unsigned)sheet.refusal, (unsigned)sheet.at, (unsigned)sheet.lines, sheet.bytes,
           sheet.finished ? "finished" : "not finished");
    fwrite(out, 1, sheet.bytes, stdout);

    meter_slim_reply slim = meter_slim(file, sizeof file, out, sizeof out);
    int same = slim.bytes == sizeof file && memcmp(out, file, sizeof file) == 0;
    printf("slim: refusal %u at %u, %zu bytes, %s\n", (unsigned)slim.refusal, (unsigned)slim.at, slim.bytes,
           same ? "equal to the file" : "not equal to the file");
    return 0;
}
