/* The calls of comtrade.h, built on the proved calls of crates/comtrade_c, which do the reading and writing. This file keeps a record in
 * tables on the heap that the proved calls fill, and looks into them. To write, it composes a configuration file from a setup; the proved
 * writer reads that by the grammar of the standard before it writes a byte. */
#define _DEFAULT_SOURCE /* madvise */
#include "comtrade.h"

#include <limits.h>
#include <locale.h>
#include <math.h>
#include <stdarg.h>
#include <stdio.h>
#include <stdlib.h>
#include <string.h>
#ifdef __linux__
#include <sys/mman.h>
#endif

/* The proved calls. Their contracts in crates/comtrade_c/src define what each answers. No pointer may be NULL. */
struct core_head {
    uint64_t rows;
    size_t analog, status, rates, text;
    int64_t first, trigger;
    double line_freq, timemult;
    uint32_t nrates;
    bool binary;
};
struct core_analog {
    double a, b, skew, primary, secondary;
    int32_t min, max;
    bool on_secondary;
};
struct core_rate {
    double samp;
    uint64_t endsamp;
};
struct core_sizes {
    size_t cfg, dat;
};
int32_t comtrade_core_head(const uint8_t *cfg, size_t, struct core_head *, struct comtrade_fault *);
int32_t comtrade_core_channels(const uint8_t *cfg, size_t, struct core_analog *, size_t, uint8_t *normal, size_t, struct core_rate *, size_t,
                               size_t *lengths, size_t, uint8_t *text, size_t, struct comtrade_fault *);
int32_t comtrade_core_rows(const uint8_t *cfg, size_t, const uint8_t *dat, size_t, uint64_t *stamps, size_t, int32_t *samples, size_t,
                           uint8_t *bits, size_t, struct comtrade_fault *);
int32_t comtrade_core_times(const uint8_t *cfg, size_t, const uint64_t *stamps, size_t, int64_t *times, size_t, struct comtrade_fault *);
int32_t comtrade_core_values(double a, double b, const int32_t *samples, size_t, double *values, size_t);
int32_t comtrade_core_write(const uint8_t *cfg, size_t, bool binary, const uint64_t *stamps, size_t, const int32_t *samples, size_t,
                            const uint8_t *bits, size_t, uint8_t *new_cfg, size_t, uint8_t *new_dat, size_t, struct core_sizes *,
                            struct comtrade_fault *);
int32_t comtrade_core_words(const uint8_t *cfg, size_t, const uint8_t *dat, size_t, uint8_t *text, size_t, size_t *count);
struct core_lengths {
    size_t cfg, dat, notes, repairs;
};
int32_t comtrade_core_import(const uint8_t *cfg, size_t, const uint8_t *dat, size_t, bool is_single, uint32_t order, const uint8_t *encoding, size_t,
                             uint8_t *new_cfg, size_t, uint8_t *new_dat, size_t, uint8_t *notes, size_t, struct core_lengths *);

int32_t comtrade_core_cycle(const uint8_t *cfg, size_t, size_t rate, uint64_t cycles, uint64_t *rows, struct comtrade_fault *);
int32_t comtrade_core_rms(const uint8_t *cfg, size_t, size_t channel, const int32_t *samples, size_t, double *value, struct comtrade_fault *);
struct core_measure {
    double rms, re, im, dc, fall, peak, residual;
    size_t peak_row, orders;
    bool has_angle;
};
int32_t comtrade_core_measure(const uint8_t *cfg, size_t, size_t channel, size_t rate, double a, double b, const int32_t *samples, size_t,
                              double *orders, size_t, struct core_measure *, struct comtrade_fault *);

struct comtrade {
    uint8_t *cfg;
    size_t cfg_length;
    struct core_head head;
    size_t rows;
    struct core_analog *analog;
    uint8_t *normal;
    struct core_rate *rates;
    size_t *ends; /* the end of each text in `text` */
    uint8_t *text;
    uint64_t *stamps;
    int64_t *times;
    int32_t *samples;
    uint8_t *bits;
    uint8_t *notes; /* lines */
    size_t notes_length, note_count;
};

enum { ANALOG_TEXTS = 4, STATUS_TEXTS = 3, RECORD_TEXTS = 2 };

int32_t comtrade_version(void) { return COMTRADE_VERSION; }

const char *comtrade_answer_text(int32_t answer) {
    static const char *const words[] = {
        "done", "the configuration file has an error", "the data file has an error", "no COMTRADE file can hold this record", "out of memory",
        "the buffer is too short", "there is no such channel, rate or row", "a file cannot be read or written",
        "the `size` of a struct is too small for any version", "a pointer is NULL, or an argument is not valid for the call",
        "the files cannot be read, also not by `comtrade import`",
        "no such measure: no frequency or rate, too few rows, or a missing sample",
    };
    return 0 <= answer && answer < (int32_t)(sizeof words / sizeof *words) ? words[answer] : "not an answer of this library";
}

static int32_t put_text(const void *text, size_t length, char *buffer, size_t room, size_t *needed) {
    if (needed) *needed = length;
    if (room <= length) return COMTRADE_NO_ROOM;
    if (!buffer) return COMTRADE_BAD_CALL;
    if (length) memcpy(buffer, text, length);
    buffer[length] = 0;
    return COMTRADE_DONE;
}

int32_t comtrade_fault_text(const struct comtrade_fault *fault, char *buffer, size_t room, size_t *needed) {
    static const char *const words[] = {
        "no fault", "the first line is not that of a file of 1999", "line %llu has the wrong number of fields",
        "line %llu, field %lu cannot be read or is out of its range",
        "line %llu: a number contradicts an earlier line or its own fields", "line %llu is not a date and a time of day",
        "the data type is neither ASCII nor BINARY", "line %llu is missing", "line %llu comes after the last line",
        "the length of the binary data does not fit its rows", "the parts of the file do not fit each other",
        "line %llu, field %lu of the configuration file: the text cannot be written there",
        "row %llu: the data file cannot hold the value of channel %lu",
        "row %llu: the data file cannot hold the row's number or time stamp",
    };
    char text[160];
    if (!fault || fault->kind >= sizeof words / sizeof *words) return COMTRADE_BAD_CALL;
    int length = snprintf(text, sizeof text, words[fault->kind], (unsigned long long)fault->place, (unsigned long)fault->field);
    return put_text(text, (size_t)length, buffer, room, needed);
}

/* A valid pointer for a length of 0. */
static const uint8_t *some(const void *at) {
    static const uint64_t nothing[2] = {0, 0};
    return at ? (const uint8_t *)at : (const uint8_t *)nothing;
}

int32_t comtrade_explain(const uint8_t *cfg, size_t cfg_length, const uint8_t *dat, size_t dat_length, char *buffer, size_t room, size_t *needed) {
    if ((!cfg && cfg_length) || (!dat && dat_length) || (!buffer && room)) return COMTRADE_BAD_CALL;
    uint8_t none[1];
    size_t count = 0;
    int32_t answer = comtrade_core_words(some(cfg), cfg_length, some(dat), dat_length, buffer ? (uint8_t *)buffer : none, room, &count);
    if (answer == COMTRADE_NO_MEMORY) return answer;
    size_t length = count ? count - 1 : 0; /* the zero replaces the end of the line */
    if (needed) *needed = length;
    if (answer != COMTRADE_DONE || room <= length) return COMTRADE_NO_ROOM;
    buffer[length] = 0;
    return COMTRADE_DONE;
}

/* Asks for large pages for a block of megabytes: the first use of each 4 KB page takes longer than writing to it. */
static void *in_large_pages(void *at, size_t size) {
#ifdef MADV_HUGEPAGE
    const uintptr_t page = 4096, from = ((uintptr_t)at + page - 1) / page * page;
    if (at && size >= (2u << 20)) madvise((void *)from, ((uintptr_t)at + size - from) / page * page, MADV_HUGEPAGE);
#endif
    (void)size;
    return at;
}

/* Room for `count` items, or 16 bytes if there are none. NULL if memory runs out. */
static void *room_for(size_t count, size_t size) {
    return count > SIZE_MAX / size ? NULL : in_large_pages(malloc(count ? count * size : 16), count * size);
}

void comtrade_close(comtrade *record) {
    if (!record) return;
    free(record->cfg);
    free(record->analog);
    free(record->normal);
    free(record->rates);
    free(record->ends);
    free(record->text);
    free(record->stamps);
    free(record->times);
    free(record->samples);
    free(record->bits);
    free(record->notes);
    free(record);
}

static size_t texts_of(const struct core_head *head) { return RECORD_TEXTS + ANALOG_TEXTS * head->analog + STATUS_TEXTS * head->status; }

static int32_t read_channels(comtrade *r, const uint8_t *cfg, size_t cfg_length, struct comtrade_fault *fault) {
    const struct core_head *head = &r->head;
    size_t texts = texts_of(head);
    r->analog = (struct core_analog *)room_for(head->analog, sizeof *r->analog);
    r->normal = (uint8_t *)room_for(head->status, 1);
    r->rates = (struct core_rate *)room_for(head->rates, sizeof *r->rates);
    r->ends = (size_t *)room_for(texts, sizeof *r->ends);
    r->text = (uint8_t *)room_for(head->text, 1);
    if (!r->analog || !r->normal || !r->rates || !r->ends || !r->text) return COMTRADE_NO_MEMORY;
    int32_t answer = comtrade_core_channels(cfg, cfg_length, r->analog, head->analog, r->normal, head->status, r->rates, head->rates,
                                            r->ends, texts, r->text, head->text, fault);
    if (answer == COMTRADE_DONE)
        for (size_t k = 1; k < texts; k++) r->ends[k] += r->ends[k - 1];
    return answer;
}

static int32_t read_rows(comtrade *r, const uint8_t *cfg, size_t cfg_length, const uint8_t *dat, size_t dat_length, struct comtrade_fault *fault) {
    /* In either form a row takes at least a byte and one more for each sample. Shorter data have a fault, so only that is asked for. */
    bool fits = r->head.rows <= dat_length / (1 + r->head.analog);
    size_t rows = fits ? (size_t)r->head.rows : 0, analog = rows * r->head.analog, status = 0;
    if (r->head.status) fits = fits && rows <= SIZE_MAX / r->head.status, status = fits ? rows * r->head.status : 0;
    r->rows = rows;
    r->stamps = (uint64_t *)room_for(rows, sizeof *r->stamps);
    r->times = (int64_t *)room_for(rows, sizeof *r->times);
    r->samples = (int32_t *)room_for(analog, sizeof *r->samples);
    r->bits = (uint8_t *)room_for(status, 1);
    if (!r->stamps || !r->times || !r->samples || !r->bits) return COMTRADE_NO_MEMORY;
    int32_t answer = comtrade_core_rows(cfg, cfg_length, dat, dat_length, r->stamps, rows, r->samples, analog, r->bits, status, fault);
    return answer == COMTRADE_DONE ? comtrade_core_times(cfg, cfg_length, r->stamps, rows, r->times, rows, fault) : answer;
}

/* Measures read the numbers of the configuration file with all their digits. */
static int32_t keep_cfg(comtrade *r, const uint8_t *cfg, size_t cfg_length) {
    r->cfg = (uint8_t *)room_for(cfg_length, 1), r->cfg_length = cfg_length;
    if (!r->cfg) return COMTRADE_NO_MEMORY;
    memcpy(r->cfg, cfg, cfg_length);
    return COMTRADE_DONE;
}

int32_t comtrade_open(const uint8_t *cfg, size_t cfg_length, const uint8_t *dat, size_t dat_length, comtrade **record,
                      struct comtrade_fault *fault) {
    struct comtrade_fault unsaid;
    if (!record || (cfg_length && !cfg) || (dat_length && !dat)) return COMTRADE_BAD_CALL;
    if (!fault) fault = &unsaid;
    cfg = some(cfg), dat = some(dat);
    comtrade *r = (comtrade *)malloc(sizeof *r);
    if (!r) return COMTRADE_NO_MEMORY;
    memset(r, 0, sizeof *r);
    int32_t answer = comtrade_core_head(cfg, cfg_length, &r->head, fault);
    if (answer == COMTRADE_DONE) answer = read_channels(r, cfg, cfg_length, fault);
    if (answer == COMTRADE_DONE) answer = read_rows(r, cfg, cfg_length, dat, dat_length, fault);
    if (answer == COMTRADE_DONE) answer = keep_cfg(r, cfg, cfg_length);
    if (answer == COMTRADE_DONE)
        *record = r;
    else
        comtrade_close(r);
    return answer;
}

/* Room for the bytes of a file and one more, which shows its end. A guess if the length is unknown, as for a pipe or a folder. */
static size_t room_of(FILE *file) {
    long end = fseek(file, 0, SEEK_END) == 0 ? ftell(file) : -1;
    rewind(file);
    return end < 65536 || end == LONG_MAX ? 65536 : (size_t)end + 1;
}

static int32_t contents(const char *name, uint8_t **at, size_t *length) {
    size_t got = 0, more, room;
    FILE *file = fopen(name, "rb");
    if (!file) return COMTRADE_NO_FILE;
    room = room_of(file);
    uint8_t *bytes = (uint8_t *)room_for(room, 1), *longer;
    int32_t answer = bytes ? COMTRADE_DONE : COMTRADE_NO_MEMORY;
    while (answer == COMTRADE_DONE) {
        more = fread(bytes + got, 1, room - got, file);
        got += more;
        if (ferror(file)) answer = COMTRADE_NO_FILE;
        if (got < room) break;
        room += room;
        longer = (uint8_t *)realloc(bytes, room);
        if (!longer)
            answer = COMTRADE_NO_MEMORY;
        else
            bytes = longer;
    }
    fclose(file);
    if (answer == COMTRADE_DONE)
        *at = bytes, *length = got;
    else
        free(bytes);
    return answer;
}

int32_t comtrade_open_files(const char *cfg_name, const char *dat_name, comtrade **record, struct comtrade_fault *fault) {
    uint8_t *cfg = NULL, *dat = NULL;
    size_t cfg_length = 0, dat_length = 0;
    if (!cfg_name || !dat_name || !record) return COMTRADE_BAD_CALL;
    int32_t answer = contents(cfg_name, &cfg, &cfg_length);
    if (answer == COMTRADE_DONE) answer = contents(dat_name, &dat, &dat_length);
    if (answer == COMTRADE_DONE) answer = comtrade_open(cfg, cfg_length, dat, dat_length, record, fault);
    free(cfg);
    free(dat);
    return answer;
}

/* The files of an import, and its notes or the reason of its refusal. */
struct imported {
    uint8_t *cfg, *dat, *notes;
    struct core_lengths lengths;
};

static void forget(struct imported *made) {
    free(made->cfg);
    free(made->dat);
    free(made->notes);
    made->cfg = made->dat = made->notes = NULL;
}

static bool make_room(struct imported *made, struct core_lengths room) {
    made->cfg = (uint8_t *)room_for(room.cfg, 1);
    made->dat = (uint8_t *)room_for(room.dat, 1);
    made->notes = (uint8_t *)room_for(room.notes, 1);
    return made->cfg && made->dat && made->notes;
}

static size_t at_least(size_t a, size_t b) { return a < b ? b : a; }

/* Files that are repaired are seldom longer than what was given; if one is, its length is known then, and all is done again. */
static int32_t import_texts(const uint8_t *cfg, size_t cfg_length, const uint8_t *dat, size_t dat_length, const struct comtrade_choices *choices,
                            struct imported *made) {
    const uint8_t *encoding = some(choices->encoding);
    size_t letters = choices->encoding ? strlen(choices->encoding) : 0, most = dat ? dat_length : cfg_length;
    if (cfg_length > SIZE_MAX / 2 || most > SIZE_MAX / 2) return COMTRADE_NO_MEMORY;
    struct core_lengths room = {cfg_length + 4096, most + 4096, 4096, 0}, found = room;
    for (int turn = 0;; turn++) {
        int32_t answer = COMTRADE_NO_MEMORY;
        if (make_room(made, room))
            answer = comtrade_core_import(cfg, cfg_length, some(dat), dat_length, !dat, choices->dates, encoding, letters, made->cfg, room.cfg,
                                          made->dat, room.dat, made->notes, room.notes, &found);
        bool lacks_room = answer == COMTRADE_NO_ROOM || (answer == COMTRADE_REFUSED && found.notes > room.notes);
        made->lengths = found;
        if (!lacks_room || turn == 1) return lacks_room ? COMTRADE_NO_MEMORY : answer;
        forget(made);
        room.cfg = at_least(room.cfg, found.cfg), room.dat = at_least(room.dat, found.dat), room.notes = at_least(room.notes, found.notes);
    }
}

int32_t comtrade_import(const uint8_t *cfg, size_t cfg_length, const uint8_t *dat, size_t dat_length, const struct comtrade_choices *choices,
                        comtrade **record, char *why, size_t room, size_t *needed) {
    struct comtrade_choices made = {sizeof made, NULL, COMTRADE_DATES_AS_USUAL};
    struct imported files = {NULL, NULL, NULL, {0, 0, 0, 0}};
    if (!record || (cfg_length && !cfg) || (dat_length && !dat) || (!why && room)) return COMTRADE_BAD_CALL;
    if (choices && choices->size < sizeof made) return COMTRADE_BAD_SIZE;
    if (choices) memcpy(&made, choices, sizeof made);
    comtrade *r = NULL;
    int32_t answer = import_texts(some(cfg), cfg_length, dat, dat_length, &made, &files);
    if (answer == COMTRADE_REFUSED) {
        put_text(files.notes, files.lengths.notes, why, room, needed);
    } else if (answer == COMTRADE_DONE) {
        answer = comtrade_open(files.cfg, files.lengths.cfg, files.dat, files.lengths.dat, &r, NULL);
    }
    if (answer == COMTRADE_DONE) {
        r->notes = files.notes, r->notes_length = files.lengths.notes, r->note_count = files.lengths.repairs;
        files.notes = NULL;
        *record = r;
    }
    forget(&files);
    return answer;
}

int32_t comtrade_import_files(const char *cfg_name, const char *dat_name, const struct comtrade_choices *choices, comtrade **record, char *why,
                              size_t room, size_t *needed) {
    uint8_t *cfg = NULL, *dat = NULL;
    size_t cfg_length = 0, dat_length = 0;
    if (!cfg_name || !record) return COMTRADE_BAD_CALL;
    int32_t answer = contents(cfg_name, &cfg, &cfg_length);
    if (answer == COMTRADE_DONE && dat_name) answer = contents(dat_name, &dat, &dat_length);
    if (answer == COMTRADE_DONE) answer = comtrade_import(cfg, cfg_length, dat, dat_length, choices, record, why, room, needed);
    free(cfg);
    free(dat);
    return answer;
}

size_t comtrade_notes(const comtrade *r) { return r ? r->note_count : 0; }

int32_t comtrade_note(const comtrade *r, size_t note, char *buffer, size_t room, size_t *needed) {
    if (!r) return COMTRADE_BAD_CALL;
    if (note >= r->note_count) return COMTRADE_NO_ITEM;
    const uint8_t *line = r->notes, *end = r->notes + r->notes_length, *stop;
    for (;; note--) {
        stop = (const uint8_t *)memchr(line, '\n', (size_t)(end - line));
        if (!stop) return COMTRADE_NO_ITEM;
        if (!note) return put_text(line, (size_t)(stop - line), buffer, room, needed);
        line = stop + 1;
    }
}

/* Fills a struct of the caller, which must be long enough for the members of the first version. */
static int32_t give(void *to, const void *from, size_t size) {
    size_t given;
    if (!to) return COMTRADE_BAD_CALL;
    memcpy(&given, to, sizeof given);
    if (given < size) return COMTRADE_BAD_SIZE;
    memcpy((uint8_t *)to + sizeof given, (const uint8_t *)from + sizeof given, size - sizeof given);
    return COMTRADE_DONE;
}

int32_t comtrade_head(const comtrade *r, struct comtrade_head *head) {
    if (!r) return COMTRADE_BAD_CALL;
    struct comtrade_head said;
    memset(&said, 0, sizeof said);
    said.analog = r->head.analog, said.status = r->head.status, said.rates = r->head.rates, said.rows = r->rows;
    said.first = r->head.first, said.trigger = r->head.trigger;
    said.line_freq = r->head.line_freq, said.timemult = r->head.timemult;
    said.nrates = r->head.nrates, said.binary = r->head.binary;
    return give(head, &said, sizeof said);
}

int32_t comtrade_text(const comtrade *r, int32_t which, size_t channel, char *buffer, size_t room, size_t *needed) {
    if (!r || which < COMTRADE_STATION || COMTRADE_STATUS_COMPONENT < which || (room && !buffer)) return COMTRADE_BAD_CALL;
    size_t channels = which < COMTRADE_ANALOG_ID ? 1 : which < COMTRADE_STATUS_ID ? r->head.analog : r->head.status, at;
    if (channels <= channel) return COMTRADE_NO_ITEM;
    if (which < COMTRADE_ANALOG_ID)
        at = (size_t)which;
    else if (which < COMTRADE_STATUS_ID)
        at = RECORD_TEXTS + ANALOG_TEXTS * channel + (size_t)(which - COMTRADE_ANALOG_ID);
    else
        at = RECORD_TEXTS + ANALOG_TEXTS * r->head.analog + STATUS_TEXTS * channel + (size_t)(which - COMTRADE_STATUS_ID);
    size_t from = at ? r->ends[at - 1] : 0;
    return put_text(r->text + from, r->ends[at] - from, buffer, room, needed);
}

int32_t comtrade_analog(const comtrade *r, size_t channel, struct comtrade_analog *analog) {
    if (!r) return COMTRADE_BAD_CALL;
    if (r->head.analog <= channel) return COMTRADE_NO_ITEM;
    const struct core_analog *c = &r->analog[channel];
    struct comtrade_analog said;
    memset(&said, 0, sizeof said);
    said.a = c->a, said.b = c->b, said.skew = c->skew, said.primary = c->primary, said.secondary = c->secondary;
    said.min = c->min, said.max = c->max, said.on_secondary = c->on_secondary;
    return give(analog, &said, sizeof said);
}

int32_t comtrade_status(const comtrade *r, size_t channel, struct comtrade_status *status) {
    if (!r) return COMTRADE_BAD_CALL;
    if (r->head.status <= channel) return COMTRADE_NO_ITEM;
    struct comtrade_status said;
    memset(&said, 0, sizeof said);
    said.normal = r->normal[channel] != 0;
    return give(status, &said, sizeof said);
}

int32_t comtrade_rate(const comtrade *r, size_t rate, struct comtrade_rate *to) {
    if (!r) return COMTRADE_BAD_CALL;
    if (r->head.rates <= rate) return COMTRADE_NO_ITEM;
    struct comtrade_rate said;
    memset(&said, 0, sizeof said);
    said.samp = r->rates[rate].samp, said.endsamp = r->rates[rate].endsamp;
    return give(to, &said, sizeof said);
}

/* Checks that these rows and this channel (of `channels`) exist, and that there is a buffer. */
static int32_t asked(const comtrade *r, size_t channel, size_t channels, size_t first, size_t count, const void *to) {
    if (!r) return COMTRADE_BAD_CALL;
    if (r->rows < first || r->rows - first < count || (channel != COMTRADE_ALL && channels <= channel)) return COMTRADE_NO_ITEM;
    if (!to && count && (channel != COMTRADE_ALL || channels)) return COMTRADE_BAD_CALL;
    return COMTRADE_DONE;
}

int32_t comtrade_samples(const comtrade *r, size_t channel, size_t first, size_t count, int32_t *to) {
    size_t n = r ? r->head.analog : 0;
    int32_t answer = asked(r, channel, n, first, count, to);
    if (answer != COMTRADE_DONE) return answer;
    if (channel != COMTRADE_ALL)
        for (size_t k = 0; k < count; k++) to[k] = r->samples[(first + k) * n + channel];
    else if (count && n)
        memcpy(to, r->samples + first * n, count * n * sizeof *to);
    return COMTRADE_DONE;
}

/* Writes the values of a channel in these rows to every `step`-th place, a block at a time. */
static int32_t put_values(const comtrade *r, size_t channel, size_t first, size_t count, double *to, size_t step) {
    enum { BLOCK = 1024 };
    int32_t samples[BLOCK];
    double values[BLOCK];
    for (size_t k = 0, now; k < count; k += now) {
        now = count - k < BLOCK ? count - k : BLOCK;
        for (size_t j = 0; j < now; j++) samples[j] = r->samples[(first + k + j) * r->head.analog + channel];
        double *into = step == 1 ? to + k : values;
        int32_t answer = comtrade_core_values(r->analog[channel].a, r->analog[channel].b, samples, now, into, now);
        if (answer != COMTRADE_DONE) return answer;
        for (size_t j = 0; j < now && into == values; j++) to[(k + j) * step] = values[j];
    }
    return COMTRADE_DONE;
}

int32_t comtrade_values(const comtrade *r, size_t channel, size_t first, size_t count, double *to) {
    size_t n = r ? r->head.analog : 0;
    int32_t answer = asked(r, channel, n, first, count, to);
    if (answer != COMTRADE_DONE) return answer;
    if (channel != COMTRADE_ALL) return put_values(r, channel, first, count, to, 1);
    enum { BLOCK = 64 }; /* this many rows of all channels fit in the cache */
    for (size_t k = 0, now; k < count; k += now) {
        now = count - k < BLOCK ? count - k : BLOCK;
        for (size_t c = 0; c < n && answer == COMTRADE_DONE; c++) answer = put_values(r, c, first + k, now, to + k * n + c, n);
    }
    return answer;
}

int32_t comtrade_bits(const comtrade *r, size_t channel, size_t first, size_t count, uint8_t *to) {
    size_t m = r ? r->head.status : 0;
    int32_t answer = asked(r, channel, m, first, count, to);
    if (answer != COMTRADE_DONE) return answer;
    if (channel != COMTRADE_ALL)
        for (size_t k = 0; k < count; k++) to[k] = r->bits[(first + k) * m + channel];
    else if (count && m)
        memcpy(to, r->bits + first * m, count * m);
    return COMTRADE_DONE;
}

int32_t comtrade_stamps(const comtrade *r, size_t first, size_t count, uint64_t *to) {
    int32_t answer = asked(r, 0, 1, first, count, to);
    if (answer == COMTRADE_DONE && count) memcpy(to, r->stamps + first, count * sizeof *to);
    return answer;
}

int32_t comtrade_times(const comtrade *r, size_t first, size_t count, int64_t *to) {
    int32_t answer = asked(r, 0, 1, first, count, to);
    if (answer == COMTRADE_DONE && count) memcpy(to, r->times + first, count * sizeof *to);
    return answer;
}

/* The rate of a row, and its first row. */
static int32_t rate_of(const comtrade *r, size_t row, size_t *rate, size_t *from) {
    size_t begin = 0;
    for (size_t k = 0; r->head.nrates && k < r->head.rates; k++) {
        if (row < r->rates[k].endsamp) {
            *rate = k, *from = begin;
            return COMTRADE_DONE;
        }
        begin = (size_t)r->rates[k].endsamp;
    }
    return COMTRADE_NO_MEASURE;
}

/* The samples of a channel in these rows, in a block to be freed. NULL if memory runs out. */
static int32_t *samples_of(const comtrade *r, size_t channel, size_t first, size_t rows) {
    int32_t *samples = (int32_t *)room_for(rows, sizeof *samples);
    for (size_t k = 0; samples && k < rows; k++) samples[k] = r->samples[(first + k) * r->head.analog + channel];
    return samples;
}

int32_t comtrade_rms(const comtrade *r, size_t channel, size_t first, size_t count, double *rms) {
    struct comtrade_fault unsaid;
    if (!r || !rms || channel == COMTRADE_ALL) return COMTRADE_BAD_CALL;
    int32_t answer = asked(r, channel, r->head.analog, first, count, rms), *samples;
    if (answer != COMTRADE_DONE) return answer;
    samples = samples_of(r, channel, first, count);
    if (!samples) return COMTRADE_NO_MEMORY;
    answer = comtrade_core_rms(r->cfg, r->cfg_length, channel, samples, count, rms, &unsaid);
    free(samples);
    return answer;
}

/* The whole rows of the last so many cycles that end with a row, all at its rate. */
static int32_t cycles_to(const comtrade *r, size_t row, uint32_t cycles, size_t *rate, size_t *first, size_t *count) {
    struct comtrade_fault unsaid;
    size_t from = 0;
    uint64_t rows = 0;
    int32_t answer = rate_of(r, row, rate, &from);
    if (answer == COMTRADE_DONE) answer = comtrade_core_cycle(r->cfg, r->cfg_length, *rate, cycles, &rows, &unsaid);
    if (answer == COMTRADE_DONE && (!rows || row < from || row + 1 - from < rows)) answer = COMTRADE_NO_MEASURE;
    if (answer == COMTRADE_DONE) *count = (size_t)rows, *first = row + 1 - (size_t)rows;
    return answer;
}

static void show(const struct core_measure *from, struct comtrade_measure *to) {
    to->rms = from->rms, to->re = from->re, to->im = from->im, to->dc = from->dc, to->fall = from->fall, to->peak = from->peak;
    to->residual = from->residual, to->peak_row = to->first + from->peak_row, to->orders = from->orders, to->has_angle = from->has_angle;
}

int32_t comtrade_measure(const comtrade *r, size_t channel, size_t row, uint32_t cycles, struct comtrade_measure *measure) {
    struct comtrade_measure said;
    struct core_measure found;
    struct comtrade_fault unsaid;
    size_t rate = 0;
    if (!r || !measure || !cycles) return COMTRADE_BAD_CALL;
    if (r->head.analog <= channel || r->rows <= row) return COMTRADE_NO_ITEM;
    memset(&said, 0, sizeof said);
    int32_t answer = cycles_to(r, row, cycles, &rate, &said.first, &said.rows), *samples;
    if (answer != COMTRADE_DONE) return answer;
    samples = samples_of(r, channel, said.first, said.rows);
    if (!samples) return COMTRADE_NO_MEMORY;
    answer = comtrade_core_measure(r->cfg, r->cfg_length, channel, rate, r->analog[channel].a, r->analog[channel].b, samples, said.rows,
                                   said.order, COMTRADE_ORDERS, &found, &unsaid);
    free(samples);
    if (answer != COMTRADE_DONE) return answer;
    show(&found, &said);
    return give(measure, &said, sizeof said);
}

/* A configuration file being composed. `fault` gets a kind at the first thing that cannot be written. */
struct lines {
    char *at;
    size_t length, room;
    uint64_t line;
    uint32_t field;
    bool out_of_memory;
    struct comtrade_fault fault;
};

static void put(struct lines *to, const char *text, size_t length) {
    if (to->out_of_memory || !length) return;
    if (to->room - to->length < length) {
        size_t room = 2 * to->room + length;
        char *longer = (char *)realloc(to->at, room);
        to->out_of_memory = !longer;
        if (!longer) return;
        to->at = longer, to->room = room;
    }
    memcpy(to->at + to->length, text, length);
    to->length += length;
}

static void put_words(struct lines *to, const char *form, ...) {
    char text[96];
    va_list words;
    va_start(words, form);
    int length = vsnprintf(text, sizeof text, form, words);
    va_end(words);
    if (to->field++) put(to, ",", 1);
    put(to, text, (size_t)length);
}

static void end_line(struct lines *to) {
    put(to, "\r\n", 2);
    to->line++;
    to->field = 0;
}

static void refuse(struct lines *to, uint32_t kind) {
    if (to->fault.kind) return;
    to->fault.kind = kind, to->fault.place = to->line, to->fault.field = to->field;
}

/* A text of `least` to `most` bytes 20 to 7E, without a comma and without a blank at either end (5.3.1, 5.3.3, 5.3.4). */
static void put_name(struct lines *to, const char *text, size_t least, size_t most) {
    if (!text) text = "";
    size_t length = strlen(text);
    bool ill = length < least || most < length || (length && (text[0] == ' ' || text[length - 1] == ' '));
    for (size_t k = 0; k < length; k++) ill = ill || text[k] < 0x20 || 0x7E < text[k] || text[k] == ',';
    if (to->field++) put(to, ",", 1);
    if (ill) refuse(to, COMTRADE_TEXT);
    put(to, text, length);
}

/* The shortest decimal that reads back to this double. */
static void put_number(struct lines *to, double number) {
    char text[48];
    int digits = 1;
    if (to->field++) put(to, ",", 1);
    if (!isfinite(number)) {
        refuse(to, COMTRADE_NUMBER);
        number = 0;
    }
    do snprintf(text, sizeof text, "%.*g", digits, number);
    while (digits++ < 17 && strtod(text, NULL) != number);
    const char *point = localeconv()->decimal_point, *found = strstr(text, point);
    if (found) {
        put(to, text, (size_t)(found - text));
        put(to, ".", 1);
        found += strlen(point);
        put(to, found, strlen(found));
    } else
        put(to, text, strlen(text));
}

/* dd/mm/yyyy,hh:mm:ss.ssssss (5.3.7). A year outside 1 to 9999 is refused. */
static void put_instant(struct lines *to, int64_t instant) {
    const int64_t day = INT64_C(86400000000);
    int64_t days = instant / day, rest = instant % day;
    if (rest < 0) rest += day, days--;
    int64_t z = days + 719468, era = (z < 0 ? z - 146096 : z) / 146097, doe = z - era * 146097;
    int64_t yoe = (doe - doe / 1460 + doe / 36524 - doe / 146096) / 365, doy = doe - (365 * yoe + yoe / 4 - yoe / 100), mp = (5 * doy + 2) / 153;
    int month = (int)(mp < 10 ? mp + 3 : mp - 9);
    long long year = (long long)(yoe + era * 400 + (month <= 2));
    if (year < 1 || 9999 < year) refuse(to, COMTRADE_INSTANT), year = 1;
    put_words(to, "%02d/%02d/%04lld", (int)(doy - (153 * mp + 2) / 5 + 1), month, year);
    put_words(to, "%02d:%02d:%02d.%06d", (int)(rest / INT64_C(3600000000)), (int)(rest / 60000000 % 60), (int)(rest / 1000000 % 60), (int)(rest % 1000000));
    end_line(to);
}

static void put_setup(struct lines *to, const struct comtrade_setup *s) {
    put_name(to, s->station, 0, 64), put_name(to, s->device, 0, 64), put_words(to, "1999");
    end_line(to);
    put_words(to, "%llu", (unsigned long long)s->analog_count + s->status_count);
    put_words(to, "%lluA", (unsigned long long)s->analog_count), put_words(to, "%lluD", (unsigned long long)s->status_count);
    end_line(to);
    for (size_t k = 0; k < s->analog_count; k++) {
        const struct comtrade_analog_setup *c = &s->analog[k];
        put_words(to, "%llu", (unsigned long long)k + 1);
        put_name(to, c->id, 0, 64), put_name(to, c->phase, 0, 2), put_name(to, c->component, 0, 64), put_name(to, c->unit, 1, 32);
        put_number(to, c->a), put_number(to, c->b), put_number(to, c->skew);
        put_words(to, "%ld", (long)c->min), put_words(to, "%ld", (long)c->max);
        put_number(to, c->primary), put_number(to, c->secondary), put_words(to, c->on_secondary ? "S" : "P");
        end_line(to);
    }
    for (size_t k = 0; k < s->status_count; k++) {
        const struct comtrade_status_setup *c = &s->status[k];
        put_words(to, "%llu", (unsigned long long)k + 1);
        put_name(to, c->id, 0, 64), put_name(to, c->phase, 0, 2), put_name(to, c->component, 0, 64), put_words(to, c->normal ? "1" : "0");
        end_line(to);
    }
    put_number(to, s->line_freq), end_line(to);
    put_words(to, "%llu", (unsigned long long)s->rate_count), end_line(to);
    if (!s->rate_count) put_words(to, "0"), put_words(to, "%llu", (unsigned long long)s->rows), end_line(to);
    for (size_t k = 0; k < s->rate_count; k++) {
        uint64_t end = k + 1 < s->rate_count ? s->rates[k].endsamp : s->rows;
        put_number(to, s->rates[k].samp), put_words(to, "%llu", (unsigned long long)end), end_line(to);
    }
    put_instant(to, s->first), put_instant(to, s->trigger);
    put_words(to, s->binary ? "BINARY" : "ASCII"), end_line(to);
    put_number(to, s->timemult), end_line(to);
}

static bool is_whole(const struct comtrade_setup *s) {
    return (s->analog || !s->analog_count) && (s->status || !s->status_count) && (s->rates || !s->rate_count)
        && (s->samples || !s->rows || !s->analog_count) && (s->bits || !s->rows || !s->status_count);
}

/* Makes both files from a head and the rows of the setup: first their lengths, then the bytes. */
static int32_t write_rows(const struct comtrade_setup *s, const struct lines *head, const uint64_t *stamps, uint8_t **cfg, size_t *cfg_length,
                          uint8_t **dat, size_t *dat_length, struct comtrade_fault *fault) {
    struct core_sizes sizes = {0, 0};
    uint8_t none[1];
    const uint8_t *text = (const uint8_t *)head->at;
    size_t samples = s->rows * s->analog_count, bits = s->rows * s->status_count;
    const int32_t *sample = samples ? s->samples : (const int32_t *)some(NULL);
    int32_t answer = comtrade_core_write(text, head->length, s->binary, stamps, s->rows, sample, samples, some(s->bits), bits, none, 0, none, 0, &sizes, fault);
    if (answer == COMTRADE_CFG_FAULT) answer = COMTRADE_WRITE_FAULT;
    if (answer != COMTRADE_NO_ROOM) return answer;
    uint8_t *new_cfg = (uint8_t *)room_for(sizes.cfg, 1), *new_dat = (uint8_t *)room_for(sizes.dat, 1);
    answer = COMTRADE_NO_MEMORY;
    if (new_cfg && new_dat)
        answer = comtrade_core_write(text, head->length, s->binary, stamps, s->rows, sample, samples, some(s->bits), bits, new_cfg, sizes.cfg,
                                     new_dat, sizes.dat, &sizes, fault);
    if (answer == COMTRADE_DONE) {
        *cfg = new_cfg, *cfg_length = sizes.cfg, *dat = new_dat, *dat_length = sizes.dat;
        return answer;
    }
    free(new_cfg);
    free(new_dat);
    return answer;
}

int32_t comtrade_write(const struct comtrade_setup *setup, uint8_t **cfg, size_t *cfg_length, uint8_t **dat, size_t *dat_length,
                       struct comtrade_fault *fault) {
    struct comtrade_fault unsaid;
    struct lines head = {NULL, 0, 0, 1, 0, false, {0, 0, 0}};
    uint64_t *none = NULL;
    if (!setup || !cfg || !cfg_length || !dat || !dat_length) return COMTRADE_BAD_CALL;
    if (setup->size < sizeof *setup) return COMTRADE_BAD_SIZE;
    if (!is_whole(setup)) return COMTRADE_BAD_CALL;
    if (!fault) fault = &unsaid;
    put_setup(&head, setup);
    int32_t answer = head.out_of_memory ? COMTRADE_NO_MEMORY : head.fault.kind ? COMTRADE_WRITE_FAULT : COMTRADE_DONE;
    if (answer == COMTRADE_WRITE_FAULT) *fault = head.fault;
    if (answer == COMTRADE_DONE && !setup->stamps) {
        none = (uint64_t *)room_for(setup->rows, sizeof *none);
        if (!none) answer = COMTRADE_NO_MEMORY;
        for (size_t k = 0; none && k < setup->rows; k++) none[k] = COMTRADE_NO_STAMP;
    }
    if (answer == COMTRADE_DONE)
        answer = write_rows(setup, &head, setup->stamps ? setup->stamps : none, cfg, cfg_length, dat, dat_length, fault);
    free(none);
    free(head.at);
    return answer;
}

static int32_t keep(const char *name, const uint8_t *at, size_t length) {
    FILE *file = fopen(name, "wb");
    if (!file) return COMTRADE_NO_FILE;
    bool written = fwrite(at, 1, length, file) == length;
    return fclose(file) == 0 && written ? COMTRADE_DONE : COMTRADE_NO_FILE;
}

int32_t comtrade_write_files(const struct comtrade_setup *setup, const char *cfg_name, const char *dat_name, struct comtrade_fault *fault) {
    uint8_t *cfg = NULL, *dat = NULL;
    size_t cfg_length = 0, dat_length = 0;
    if (!cfg_name || !dat_name) return COMTRADE_BAD_CALL;
    int32_t answer = comtrade_write(setup, &cfg, &cfg_length, &dat, &dat_length, fault);
    if (answer == COMTRADE_DONE) answer = keep(cfg_name, cfg, cfg_length);
    if (answer == COMTRADE_DONE) answer = keep(dat_name, dat, dat_length);
    free(cfg);
    free(dat);
    return answer;
}

void comtrade_free(void *at) { free(at); }
