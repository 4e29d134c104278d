/* The report of a test run, from a run that is written as text (docs/SCENES.md): the library `report_c` for C.

   Link libreport_c.a and the kit's liblibc_c.a, in this order; docs/USING.md has the commands. The library keeps
   nothing between two calls, and gives back all memory that it takes by malloc. */
#ifndef NORIGULLY_H
#define NORIGULLY_H

#include <stdbool.h>
#include <stddef.h>
#include <stdint.h>

#ifdef __cplusplus
extern "C" {
#endif

/* From which status level on the lines of tests are shown. */
enum {
    NORIGULLY_LEVEL_NONE = 0,
    NORIGULLY_LEVEL_FAIL = 1,
    NORIGULLY_LEVEL_RETRY = 2,
    NORIGULLY_LEVEL_SLOW = 3,
    NORIGULLY_LEVEL_LEAK = 4,
    NORIGULLY_LEVEL_PASS = 5,
    NORIGULLY_LEVEL_SKIP = 6,
    NORIGULLY_LEVEL_ALL = 7
};

/* What came of a report. */
enum {
    NORIGULLY_WRITTEN = 0,       /* The buffer begins with the report. */
    NORIGULLY_TOO_LONG = 1,      /* The report is longer than the buffer. */
    NORIGULLY_WRONG_LINE = 2,    /* A line of the scene is wrong. */
    NORIGULLY_OUT_OF_MEMORY = 3, /* Memory was refused. */
    NORIGULLY_UNKNOWN_LEVEL = 4  /* There is no such status level. */
};

/* How the report of a scene is shown. nextest's defaults are {false, false, false, NORIGULLY_LEVEL_PASS}. */
typedef struct {
    bool should_colorize;  /* Whether the report has colours. */
    bool show_counter;     /* Whether each line of a test has a counter. */
    bool is_replay;        /* Whether the run was recorded, and is shown again. */
    uint32_t status_level; /* One of NORIGULLY_LEVEL_.. */
} NorigullyOptions;

typedef struct {
    size_t length;   /* The bytes of the report, if the status is NORIGULLY_WRITTEN or NORIGULLY_TOO_LONG; else 0. */
    uint64_t line;   /* The line of the scene, from 1, if the status is NORIGULLY_WRONG_LINE; else 0. */
    uint32_t status; /* One of the five above. */
} NorigullyOutcome;

/* Writes the report of the scene to the front of the buffer `out`, and no byte after it. With any other status than
   NORIGULLY_WRITTEN the buffer stays as it was. The report is bytes, with no zero at its end.

   C cannot check what the caller must see to: `options` points to options whose bools are 0 or 1; `scene` is not null
   and points to `scene_len` bytes that nobody writes during the call; `out` is not null and points to `out_len` bytes
   that nobody else reads or writes during it. Neither length is above PTRDIFF_MAX. A length of 0 is allowed. `options`
   and `scene` are read, so they must be initialised; `out` need not be, since it is only written. */
NorigullyOutcome norigully_report(const NorigullyOptions *options, const uint8_t *scene, size_t scene_len, uint8_t *out,
                                  size_t out_len);

#ifdef __cplusplus
}
#endif

#endif
