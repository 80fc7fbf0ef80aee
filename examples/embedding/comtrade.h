/* The C library of Mehukarau: reads COMTRADE records, writes those of 1999 (IEEE Std C37.111-1999).
 * sample.c is a whole program.
 *
 *     comtrade *record;
 *     struct comtrade_fault fault;
 *     if (comtrade_open_files("x.cfg", "x.dat", &record, &fault) == COMTRADE_DONE) {
 *         comtrade_values(record, 0, 0, rows, values);
 *         comtrade_close(record);
 *     }
 *
 * comtrade_open reads a pair of files once and keeps the content; the calls that take the record
 * use only that. A call that doesn't return COMTRADE_DONE changes nothing, except what is
 * described below for its return code. Channels, rates and rows count from 0; the places of faults
 * count from 1.
 *
 * NULL is allowed for data and buffers of length 0, for the `fault` that a call sets, and where
 * a call says so. Elsewhere it gives COMTRADE_BAD_CALL. What a call writes must not overlap
 * what it reads.
 *
 * Threads: calls on different records may run at the same time. So may calls that take a
 * `const comtrade *`, even on the same record. Call comtrade_close after all other calls on a
 * record. Make no call from a signal handler, or from the forked child of a process with threads.
 *
 * Memory comes from the program's malloc, realloc and free. These must belong together, and align
 * blocks as C requires.
 *
 * Some structs begin with `size`, which the caller sets to sizeof the struct. So a program that is
 * compiled with this header works with later libraries, whose structs may be longer. */
#ifndef COMTRADE_H
#define COMTRADE_H

#include <stdbool.h>
#include <stddef.h>
#include <stdint.h>

#ifdef __cplusplus
extern "C" {
#endif

/* The version of this header: 10000 times the first number, plus 100 times the second, plus the
 * third. */
#define COMTRADE_VERSION 10200
/* The version of the library in use. A later library with the same first number does everything
 * that an earlier one does. */
int32_t comtrade_version(void);

/* Return codes. */
enum {
    COMTRADE_DONE = 0,
    COMTRADE_CFG_FAULT = 1,   /* the configuration file has a fault, described by `fault` */
    COMTRADE_DAT_FAULT = 2,   /* the data file has a fault, described by `fault` */
    COMTRADE_WRITE_FAULT = 3, /* no file can hold the content to be written; `fault` tells where */
    COMTRADE_NO_MEMORY = 4,
    COMTRADE_NO_ROOM = 5,     /* a buffer is too short: `room` must be greater than `needed` */
    COMTRADE_NO_ITEM = 6,     /* there is no channel, rate or row with this number */
    COMTRADE_NO_FILE = 7,     /* a file cannot be read or written; errno gives the reason */
    COMTRADE_BAD_SIZE = 8,    /* the `size` of a struct is not that of any version */
    COMTRADE_BAD_CALL = 9,    /* a pointer is NULL, or a number is not one that the call accepts */
    COMTRADE_REFUSED = 10,    /* comtrade_import cannot read the files; `why` tells the reason */
    COMTRADE_NO_MEASURE = 11  /* there are too few rows, or a sample is missing */
};
/* The return code in words, such as "the buffer is too short". Never NULL. */
const char *comtrade_answer_text(int32_t answer);

/* Kinds of faults. When a pair is read: */
enum {
    COMTRADE_REVISION = 1, /* place 1: the first line isn't of the 1999 revision (5.3.1) */
    COMTRADE_FIELDS = 2,   /* place: the line with the wrong number of fields */
    COMTRADE_NUMBER = 3,   /* place, field: the field that cannot be read or is out of its range */
    COMTRADE_COUNTS = 4,   /* place: the line whose counts don't add up (5.3.2), whose number isn't
                            * its channel's position, or whose rate ends before the one above */
    COMTRADE_INSTANT = 5,  /* place: the line that is not a date and a time of day (5.3.7) */
    COMTRADE_KIND = 6,     /* the data type is neither ASCII nor BINARY (5.3.8) */
    COMTRADE_MISSING = 7,  /* place: the missing line, before which the file ends */
    COMTRADE_EXTRA = 8,    /* place: the first line after the last one that the file should have */
    COMTRADE_LENGTH = 9,   /* the length of BINARY data isn't that of their rows (clause 6) */
    /* and when a pair is written, in addition to those of its configuration file: */
    COMTRADE_SHAPE = 10,   /* counts or instants that no file can have */
    COMTRADE_TEXT = 11,    /* place, field: line and field of a text that no file can hold */
    COMTRADE_VALUE = 12,   /* place, field: row and channel of a sample out of range (clause 6) */
    COMTRADE_STAMP = 13    /* place: the row whose number or stamp is out of range (clause 6) */
};

/* The place of a fault: lines, rows, fields and channels count from 1; 0 where there is none. A
 * call that finds no fault leaves it unchanged. */
struct comtrade_fault {
    uint64_t place;
    uint32_t field;
    uint32_t kind;
};

/* The fault in words, such as "line 3, field 2 cannot be read or is out of its range", with a
 * zero at its end. `needed` is the length of the text without the zero; NO_ROOM unless
 * `room` is greater. */
int32_t comtrade_fault_text(const struct comtrade_fault *fault, char *buffer, size_t room, size_t *needed);

/* The first fault of a pair, as `comtrade check` prints it, with the field's name and what it
 * contains: `the configuration file: line 3 (analogue channel 1), field 6 (a, the multiplier): ..`.
 * An empty text if there is none. A zero is at its end; `needed` and NO_ROOM as above; also
 * NO_MEMORY. It reads the pair again. */
int32_t comtrade_explain(const uint8_t *cfg, size_t cfg_length, const uint8_t *dat, size_t dat_length,
                         char *buffer, size_t room, size_t *needed);

/* A record: the content of a pair of files. */
typedef struct comtrade comtrade;

/* Reads a pair of files: from bytes, which aren't needed afterwards, or by name. Only DONE sets
 * `*record`. Returns CFG_FAULT, DAT_FAULT or NO_MEMORY; comtrade_open_files, which reads both files
 * whole, also NO_FILE. */
int32_t comtrade_open(const uint8_t *cfg, size_t cfg_length, const uint8_t *dat, size_t dat_length,
                      comtrade **record, struct comtrade_fault *fault);
int32_t comtrade_open_files(const char *cfg_name, const char *dat_name, comtrade **record, struct comtrade_fault *fault);
/* Frees the record, which may be NULL. */
void comtrade_close(comtrade *record);

/* The order of day and month in dates. */
enum { COMTRADE_DATES_AS_USUAL = 0, COMTRADE_MONTH_FIRST = 1, COMTRADE_DAY_FIRST = 2 };
/* What files of other revisions and makers may leave open. */
struct comtrade_choices {
    size_t size;
    const char *encoding; /* of texts outside ASCII, such as "cp850"; NULL: UTF-8, or else Latin-1 */
    uint32_t dates;       /* as usual: the order of the revision, unless only the other gives dates */
};

/* Reads a record as `comtrade import` does: files of 1991, 1999 and 2013, with ASCII, BINARY,
 * BINARY32 or FLOAT32 data, in the dialects of relays and programs, and single files (.cff: `cfg`,
 * and NULL for `dat`). What is repaired, or rounded to the samples of 1999, is a note. A pair that
 * comtrade_open reads, and that has no sign of another meaning, is the same record, without notes.
 * `choices` may be NULL. Only DONE sets `*record`. Returns REFUSED, with the reason and a zero in
 * `why`, if that has room for it, and the reason's length in `needed`, or NO_MEMORY; with BAD_CALL
 * also an encoding that is unknown; comtrade_import_files also NO_FILE. */
int32_t comtrade_import(const uint8_t *cfg, size_t cfg_length, const uint8_t *dat, size_t dat_length,
                        const struct comtrade_choices *choices, comtrade **record, char *why, size_t room, size_t *needed);
int32_t comtrade_import_files(const char *cfg_name, const char *dat_name, const struct comtrade_choices *choices,
                              comtrade **record, char *why, size_t room, size_t *needed);
/* How many notes a record has; none if it was read by comtrade_open. */
size_t comtrade_notes(const comtrade *record);
/* A note, such as `years-2-digits: a year of two digits (line 14: ..)`; a zero, `needed` and
 * NO_ROOM as for comtrade_text. NO_ITEM if there is no such note. */
int32_t comtrade_note(const comtrade *record, size_t note, char *buffer, size_t room, size_t *needed);

/* The record as a whole. Instants are in microseconds since 1970-01-01 00:00:00, without a
 * time zone (5.3.7). */
struct comtrade_head {
    size_t size;
    size_t analog;     /* analogue channels */
    size_t status;     /* status channels */
    size_t rates;      /* at least one, even if `nrates` is 0 (5.3.6) */
    size_t rows;
    int64_t first;     /* the instant of the first row */
    int64_t trigger;
    double line_freq;  /* Hz */
    double timemult;   /* stamps times this are in microseconds (5.3.9) */
    uint32_t nrates;   /* the number of rates as the file gives it */
    bool binary;       /* the data file is BINARY */
};
int32_t comtrade_head(const comtrade *record, struct comtrade_head *head);

/* Texts. For the texts of the record itself `channel` is 0. A zero is put after the text, which has
 * none inside unless the file does. */
enum {
    COMTRADE_STATION = 0,
    COMTRADE_DEVICE = 1,
    COMTRADE_ANALOG_ID = 2,
    COMTRADE_ANALOG_PHASE = 3,
    COMTRADE_ANALOG_COMPONENT = 4, /* the monitored circuit component */
    COMTRADE_ANALOG_UNIT = 5,
    COMTRADE_STATUS_ID = 6,
    COMTRADE_STATUS_PHASE = 7,
    COMTRADE_STATUS_COMPONENT = 8
};
/* `needed` (may be NULL) is the length of the text without its zero, also after NO_ROOM, which is
 * returned unless `room` is greater. */
int32_t comtrade_text(const comtrade *record, int32_t which, size_t channel, char *buffer, size_t room, size_t *needed);

/* An analogue channel: a sample x has the value a * x + b in the channel's unit (5.3.3). Decimals
 * of the file become the nearest doubles. */
struct comtrade_analog {
    size_t size;
    double a;
    double b;
    double skew;       /* microseconds from the row's instant */
    double primary;    /* the transformer's ratio */
    double secondary;
    int32_t min;       /* the lowest and the highest sample */
    int32_t max;
    bool on_secondary; /* the values are of the transformer's secondary side */
};
int32_t comtrade_analog(const comtrade *record, size_t channel, struct comtrade_analog *analog);

/* A status channel (5.3.4). */
struct comtrade_status {
    size_t size;
    bool normal;       /* its bit in the normal state */
};
int32_t comtrade_status(const comtrade *record, size_t channel, struct comtrade_status *status);

/* A rate in rows per second, and the number (from 1) of the last row sampled at it (5.3.6). */
struct comtrade_rate {
    size_t size;
    double samp;
    uint64_t endsamp;
};
int32_t comtrade_rate(const comtrade *record, size_t rate, struct comtrade_rate *said);

#define COMTRADE_ALL SIZE_MAX         /* for `channel`: all channels, row by row */
#define COMTRADE_NO_SAMPLE INT32_MIN  /* a missing reading; its value is a NaN */
#define COMTRADE_NO_STAMP UINT64_MAX  /* a missing stamp */

/* `count` rows from row `first` on, of one channel or of all; `to` has room for each item. NO_ITEM
 * if there is no such channel or if one of the rows doesn't exist. */
int32_t comtrade_samples(const comtrade *record, size_t channel, size_t first, size_t count, int32_t *to);
int32_t comtrade_values(const comtrade *record, size_t channel, size_t first, size_t count, double *to);
int32_t comtrade_bits(const comtrade *record, size_t channel, size_t first, size_t count, uint8_t *to);
int32_t comtrade_stamps(const comtrade *record, size_t first, size_t count, uint64_t *to);
/* Nanoseconds since the first row, rounded down within each rate. If the file gives rates and none
 * of them is 0, the rates alone decide (5.3.6); else the row's stamp times timemult (5.3.9). The
 * times are computed from the file's decimals, not from doubles. COMTRADE_NO_TIME if a row has no
 * time, or one that an int64_t can't hold. */
#define COMTRADE_NO_TIME INT64_MIN
int32_t comtrade_times(const comtrade *record, size_t first, size_t count, int64_t *to);

/* The rms value of an analogue channel over `count` rows from row `first` on: the root of the mean
 * square of its values, within 3 units of the last place of a double. NO_ITEM if there is no such
 * channel or if one of the rows doesn't exist; NO_MEASURE if there is no row, if a sample is missing,
 * or if the values have too many digits; NO_MEMORY. */
int32_t comtrade_rms(const comtrade *record, size_t channel, size_t first, size_t count, double *rms);

/* What is measured of an analogue channel over whole cycles, in its unit: the numbers of
 * `comtrade measure`. */
#define COMTRADE_ORDERS 25
struct comtrade_measure {
    size_t size;
    size_t first, rows; /* the rows of the cycles; a fraction of a row is left out */
    double rms;         /* of the signal over the cycles, with the fraction of a row */
    double re, im;      /* the fundamental: re + j im is an rms value and an angle, that of a cosine at
                         * row `first`, corrected for the channel's skew */
    double dc;          /* the dc component: its mean */
    double fall;        /* how far it falls over the rows, where it decays; else a NaN */
    double peak;        /* the value farthest from 0; the first one, if several are */
    double residual;    /* the rms value of what these and the orders leave of the signal */
    size_t peak_row;
    size_t orders;      /* how many orders are measured: those below half the rows of a cycle */
    double order[COMTRADE_ORDERS]; /* their rms values, from the fundamental on */
    bool has_angle;     /* false: the fundamental is at most a 10^9th of the peak */
};
/* Measures the last `cycles` whole cycles of the line frequency that end with `row`, all at its
 * rate. NO_ITEM if there is no such channel or row; NO_MEASURE if the record has no line frequency or
 * rate, or less than three rows a cycle, if there are fewer rows than the cycles have, or a sample is
 * missing; NO_MEMORY. */
int32_t comtrade_measure(const comtrade *record, size_t channel, size_t row, uint32_t cycles, struct comtrade_measure *measure);

/* An analogue and a status channel to be written. Texts end with a zero; NULL is an empty text. */
struct comtrade_analog_setup {
    const char *id;
    const char *phase;
    const char *component;
    const char *unit;
    double a;
    double b;
    double skew;
    double primary;
    double secondary;
    int32_t min;
    int32_t max;
    bool on_secondary;
};
struct comtrade_status_setup {
    const char *id;
    const char *phase;
    const char *component;
    bool normal;
};

/* A record to be written. Samples and bits are in the order of comtrade_samples and
 * comtrade_bits for all channels: row by row. A double is written as the shortest decimal whose
 * nearest double it is. */
struct comtrade_setup {
    size_t size;
    const char *station;
    const char *device;
    const struct comtrade_analog_setup *analog;
    size_t analog_count;
    const struct comtrade_status_setup *status;
    size_t status_count;
    const struct comtrade_rate *rates; /* the last ends at the last row; none: stamps give times */
    size_t rate_count;
    size_t rows;
    const uint64_t *stamps;            /* one per row; NULL: no row has a stamp */
    const int32_t *samples;
    const uint8_t *bits;               /* any byte except 0 is a set bit */
    double line_freq;
    double timemult;                   /* 1: the stamps are in microseconds */
    int64_t first;
    int64_t trigger;
    bool binary;
};

/* Writes both files: as bytes, in two blocks to be freed with comtrade_free (NULL for an empty
 * file), or by name. They read back to the same texts, numbers and rows. Returns WRITE_FAULT or
 * NO_MEMORY; comtrade_write_files also NO_FILE, and then leaves a file that it has begun. */
int32_t comtrade_write(const struct comtrade_setup *setup, uint8_t **cfg, size_t *cfg_length, uint8_t **dat, size_t *dat_length,
                       struct comtrade_fault *fault);
int32_t comtrade_write_files(const struct comtrade_setup *setup, const char *cfg_name, const char *dat_name, struct comtrade_fault *fault);
void comtrade_free(void *at);

#ifdef __cplusplus
}
#endif

#endif
