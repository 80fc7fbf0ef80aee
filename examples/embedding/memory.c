/* Checks what the calls answer if an allocation fails, and at their edges: NULL, lengths of 0, short buffers, structs of other sizes, rows and
 * channels that do not exist: memory CFG DAT
 * It makes comtrade_open, comtrade_import and comtrade_write with all memory, then again with the first, second, .. allocation refused, until none is refused:
 * once with every later allocation refused too, and once with that one alone, which another may make up for. It is linked with
 * -Wl,--wrap=malloc,--wrap=calloc,--wrap=realloc,--wrap=free, so that the allocations of the library pass through here. */
#include <stdio.h>
#include <stdlib.h>
#include <string.h>

#include "comtrade.h"

void *__real_malloc(size_t size);
void *__real_calloc(size_t count, size_t size);
void *__real_realloc(void *at, size_t size);
void __real_free(void *at);

static bool in_call;        /* only allocations of the library are counted and refused */
static long until_refused;  /* the allocation with this number from now is refused; 0: none */
static bool alone;          /* those after it are not */
static long refused, held;  /* the number of refused allocations, and of blocks that the library holds */

static bool refuse(void) {
    if (!in_call || until_refused == 0) return false;
    if (until_refused > 1) {
        until_refused--;
        return false;
    }
    if (alone) until_refused = 0;
    refused++;
    return true;
}

static void *counted(void *at) {
    if (in_call && at) held++;
    return at;
}

void *__wrap_malloc(size_t size) { return refuse() ? NULL : counted(__real_malloc(size)); }

void *__wrap_calloc(size_t count, size_t size) { return refuse() ? NULL : counted(__real_calloc(count, size)); }

void *__wrap_realloc(void *at, size_t size) {
    if (refuse()) return NULL;
    void *moved = __real_realloc(at, size);
    return at ? moved : counted(moved);
}

void __wrap_free(void *at) {
    if (in_call && at) held--;
    __real_free(at);
}

enum { TEXT = 65536 };
static uint8_t cfg[TEXT], dat[TEXT];
static size_t cfg_length, dat_length;
static struct comtrade_setup setup;

/* What a call made: a record, or both files. */
struct made {
    comtrade *record;
    uint8_t *cfg, *dat;
    size_t cfg_length, dat_length;
    struct comtrade_fault fault;
};

static int32_t opens(struct made *m) { return comtrade_open(cfg, cfg_length, dat, dat_length, &m->record, &m->fault); }
static int32_t opens_short(struct made *m) { return comtrade_open(cfg, cfg_length, dat, dat_length - 1, &m->record, &m->fault); }
static int32_t opens_ill(struct made *m) { return comtrade_open(cfg, 20, dat, dat_length, &m->record, &m->fault); }
static int32_t opens_nothing(struct made *m) { return comtrade_open(NULL, 0, NULL, 0, &m->record, &m->fault); }
static int32_t explains(struct made *m) {
    char text[300];
    (void)m;
    return comtrade_explain(cfg, 20, dat, dat_length, text, sizeof text, NULL);
}
static int32_t explains_nothing(struct made *m) {
    char text[300];
    (void)m;
    return comtrade_explain(cfg, cfg_length, dat, dat_length, text, sizeof text, NULL);
}
static int32_t writes(struct made *m) { return comtrade_write(&setup, &m->cfg, &m->cfg_length, &m->dat, &m->dat_length, &m->fault); }
static int32_t writes_ill(struct made *m) {
    struct comtrade_setup ill = setup;
    ill.station = "a,b";
    return comtrade_write(&ill, &m->cfg, &m->cfg_length, &m->dat, &m->dat_length, &m->fault);
}
static int32_t writes_beyond(struct made *m) {
    static const int32_t far[2] = {1, 40000};
    struct comtrade_setup ill = setup;
    ill.samples = far;
    return comtrade_write(&ill, &m->cfg, &m->cfg_length, &m->dat, &m->dat_length, &m->fault);
}

/* A pair of 1991: no year in the first line, ten fields in that of an analogue channel, the month first, no time multiplier. */
static const char old_cfg[] = "Relay,1\r\n2,1A,1D\r\n1,IA,A,,A,0.1,0,0,-32767,32767\r\n1,Trip,0\r\n50\r\n1\r\n1000,2\r\n"
                              "05/23/96,12:00:00.000000\r\n05/23/96,12:00:00.001000\r\nASCII\r\n";
static const char old_dat[] = "1,0,10,0\r\n2,1000,-10,1\r\n\x1a";

static int32_t imported(const char *cfg_text, const struct comtrade_choices *choices, comtrade **record, char *why, size_t room, size_t *needed) {
    return comtrade_import((const uint8_t *)cfg_text, strlen(cfg_text), (const uint8_t *)old_dat, strlen(old_dat), choices, record, why, room, needed);
}
static int32_t imports(struct made *m) { return imported(old_cfg, NULL, &m->record, NULL, 0, NULL); }
static int32_t imports_exact(struct made *m) { return comtrade_import(cfg, cfg_length, dat, dat_length, NULL, &m->record, NULL, 0, NULL); }
static int32_t imports_ill(struct made *m) { return imported("x,y,2525\r\n", NULL, &m->record, NULL, 0, NULL); }

static comtrade *wave;
static int32_t measures(struct made *m) {
    struct comtrade_measure found;
    found.size = sizeof found;
    (void)m;
    return comtrade_measure(wave, 0, 22, 1, &found);
}
static int32_t squares(struct made *m) {
    double rms;
    (void)m;
    return comtrade_rms(wave, 0, 3, 20, &rms);
}

/* The call frees what it made, and nothing else is held then. */
static int32_t answer_of(int32_t (*call)(struct made *), struct made *m, long refusal) {
    memset(m, 0, sizeof *m);
    until_refused = refusal, refused = 0, in_call = true;
    int32_t answer = call(m);
    if (answer != COMTRADE_DONE && (m->record || m->cfg || m->dat)) held += 1000;
    until_refused = 0;
    comtrade_close(m->record);
    comtrade_free(m->cfg);
    comtrade_free(m->dat);
    in_call = false;
    return answer;
}

static bool refuses(const char *name, int32_t (*call)(struct made *), int32_t wanted) {
    struct made made;
    for (long n = 0;; n++) {
        int32_t answer = answer_of(call, &made, n);
        bool well = answer == (n && refused ? COMTRADE_NO_MEMORY : wanted) || (refused && alone && answer == wanted);
        bool fault_kept = answer == wanted || made.fault.kind == 0;
        if (!well || !fault_kept || held) {
            printf("%s: answer %d with allocation %ld refused; %ld blocks held\n", name, answer, n, held);
            return false;
        }
        if (n && !refused) return true;
    }
}

static int ill;

static void want(const char *name, long got, long wanted) {
    if (got == wanted) return;
    printf("%s: %ld, wanted %ld\n", name, got, wanted);
    ill++;
}
#define WANT(call, wanted) want(#call, (long)(call), wanted)

static void edges(const comtrade *r) {
    struct comtrade_head head;
    struct comtrade_analog analog;
    struct comtrade_status status;
    struct comtrade_rate rate;
    struct comtrade_fault fault = {3, 2, COMTRADE_NUMBER}, unknown = {1, 1, 99};
    char text[8];
    size_t needed = 0;
    double values[4];
    uint64_t stamps[4];

    head.size = sizeof head - 1;
    WANT(comtrade_head(r, &head), COMTRADE_BAD_SIZE);
    head.size = sizeof head + 8; /* a later header's */
    WANT(comtrade_head(r, &head), COMTRADE_DONE);
    WANT(head.size, sizeof head + 8);
    head.size = sizeof head;
    WANT(comtrade_head(NULL, &head), COMTRADE_BAD_CALL);
    WANT(comtrade_head(r, NULL), COMTRADE_BAD_CALL);
    analog.size = 0, status.size = 0, rate.size = 0;
    WANT(comtrade_analog(r, 0, &analog), COMTRADE_BAD_SIZE);
    WANT(comtrade_status(r, 0, &status), COMTRADE_BAD_SIZE);
    WANT(comtrade_rate(r, 0, &rate), COMTRADE_BAD_SIZE);
    WANT(comtrade_analog(r, head.analog, &analog), COMTRADE_NO_ITEM);
    WANT(comtrade_status(r, head.status, &status), COMTRADE_NO_ITEM);
    WANT(comtrade_rate(r, head.rates, &rate), COMTRADE_NO_ITEM);

    WANT(comtrade_text(r, COMTRADE_ANALOG_ID, 0, NULL, 0, &needed), COMTRADE_NO_ROOM);
    WANT(needed, 2);
    WANT(comtrade_text(r, COMTRADE_ANALOG_ID, 0, text, 2, NULL), COMTRADE_NO_ROOM);
    WANT(comtrade_text(r, COMTRADE_ANALOG_ID, 0, text, 3, NULL), COMTRADE_DONE);
    WANT(strcmp(text, "UA"), 0);
    WANT(comtrade_text(r, COMTRADE_ANALOG_ID, 0, NULL, 3, NULL), COMTRADE_BAD_CALL);
    WANT(comtrade_text(r, COMTRADE_ANALOG_ID, 99, text, 3, NULL), COMTRADE_NO_ITEM);
    WANT(comtrade_text(r, COMTRADE_STATION, 1, text, 3, NULL), COMTRADE_NO_ITEM);
    WANT(comtrade_text(r, -1, 0, text, 3, NULL), COMTRADE_BAD_CALL);
    WANT(comtrade_text(r, 9, 0, text, 3, NULL), COMTRADE_BAD_CALL);
    WANT(comtrade_fault_text(&fault, NULL, 0, &needed), COMTRADE_NO_ROOM);
    WANT(needed, (long)strlen("line 3, field 2 cannot be read or is out of its range"));
    WANT(comtrade_fault_text(&unknown, text, sizeof text, NULL), COMTRADE_BAD_CALL);
    WANT(comtrade_fault_text(NULL, text, sizeof text, NULL), COMTRADE_BAD_CALL);

    WANT(comtrade_values(r, 0, head.rows, 0, NULL), COMTRADE_DONE);
    WANT(comtrade_values(r, 0, head.rows, 1, values), COMTRADE_NO_ITEM);
    WANT(comtrade_values(r, 0, 1, SIZE_MAX, values), COMTRADE_NO_ITEM);
    WANT(comtrade_values(r, head.analog, 0, 1, values), COMTRADE_NO_ITEM);
    WANT(comtrade_values(r, 0, 0, 1, NULL), COMTRADE_BAD_CALL);
    WANT(comtrade_values(NULL, 0, 0, 0, NULL), COMTRADE_BAD_CALL);
    WANT(comtrade_values(r, COMTRADE_ALL, head.rows - 1, 1, values), COMTRADE_DONE);
    WANT(comtrade_samples(r, 0, 0, 0, NULL), COMTRADE_DONE);
    WANT(comtrade_bits(r, COMTRADE_ALL, 0, 0, NULL), COMTRADE_DONE);
    WANT(comtrade_stamps(r, head.rows - 4, 4, stamps), COMTRADE_DONE);
    WANT(comtrade_stamps(r, head.rows - 3, 4, stamps), COMTRADE_NO_ITEM);
    WANT(comtrade_times(r, head.rows, 0, NULL), COMTRADE_DONE);
}

static void words(void) {
    static const char said[] = "the configuration file: line 2 (channel counts)";
    char text[300];
    size_t needed = 99, first = 0;
    while (cfg[first++] != '\n') continue;
    WANT(comtrade_explain(cfg, cfg_length, dat, dat_length, NULL, 0, &needed), COMTRADE_NO_ROOM);
    WANT(needed, 0);
    WANT(comtrade_explain(cfg, cfg_length, dat, dat_length, text, 1, NULL), COMTRADE_DONE);
    WANT(text[0], 0);
    WANT(comtrade_explain(cfg, first, dat, dat_length, text, sizeof text, &needed), COMTRADE_DONE);
    WANT(needed, (long)strlen(text));
    if (strncmp(text, said, strlen(said)) != 0) ill += printf("said: %s\n", text);
    size_t room = needed;
    memset(text, '?', sizeof text);
    WANT(comtrade_explain(cfg, first, dat, dat_length, text, room, &needed), COMTRADE_NO_ROOM);
    WANT(text[0], '?');
    WANT(comtrade_explain(cfg, first, dat, dat_length, text, room + 1, NULL), COMTRADE_DONE);
    WANT(text[room], 0);
    WANT(comtrade_explain(NULL, 0, NULL, 0, text, sizeof text, NULL), COMTRADE_DONE);
    WANT(comtrade_explain(NULL, 1, NULL, 0, text, sizeof text, NULL), COMTRADE_BAD_CALL);
    WANT(comtrade_explain(cfg, first, dat, dat_length, NULL, 1, NULL), COMTRADE_BAD_CALL);
}

/* A record of 45 rows at 1000 rows per second and 50 Hz: the samples 10 and -10 of a factor of 0.1, of which the third is missing. */
enum { WAVE_ROWS = 45 };
static int32_t opens_wave(comtrade **record) {
    struct comtrade_analog_setup channel;
    struct comtrade_setup made;
    struct comtrade_rate rate = {sizeof rate, 1000, WAVE_ROWS};
    int32_t samples[WAVE_ROWS];
    uint8_t *new_cfg = NULL, *new_dat = NULL;
    size_t cfg_size = 0, dat_size = 0;
    for (int k = 0; k < WAVE_ROWS; k++) samples[k] = k == 2 ? COMTRADE_NO_SAMPLE : k % 2 ? -10 : 10;
    memset(&channel, 0, sizeof channel);
    channel.id = "IA", channel.unit = "A", channel.a = 0.1, channel.primary = channel.secondary = 1, channel.min = -10, channel.max = 10;
    memset(&made, 0, sizeof made);
    made.size = sizeof made, made.station = "S", made.device = "D", made.analog = &channel, made.analog_count = 1, made.rates = &rate;
    made.rate_count = 1, made.rows = WAVE_ROWS, made.samples = samples, made.line_freq = 50, made.timemult = 1, made.binary = true;
    WANT(comtrade_write(&made, &new_cfg, &cfg_size, &new_dat, &dat_size, NULL), COMTRADE_DONE);
    int32_t answer = comtrade_open(new_cfg, cfg_size, new_dat, dat_size, record, NULL);
    comtrade_free(new_cfg);
    comtrade_free(new_dat);
    return answer;
}

static bool is_near(double x, double wanted) { return x - wanted < 1e-12 && wanted - x < 1e-12; }

/* Nothing of these samples has an order below half the rows of a cycle. */
static void measured_edges(void) {
    struct comtrade_measure found;
    comtrade *r = NULL;
    WANT(opens_wave(&r), COMTRADE_DONE);
    found.size = sizeof found;
    WANT(comtrade_measure(r, 0, 22, 1, &found), COMTRADE_DONE);
    WANT(found.first, 3);
    WANT(found.rows, 20);
    WANT(is_near(found.rms, 1.0) && is_near(found.residual, 1.0) && is_near(found.dc, 0.0) && found.peak == -1.0, 1);
    WANT(is_near(found.re, 0.0) && is_near(found.im, 0.0) && !found.has_angle && found.fall != found.fall, 1);
    WANT(found.peak_row, 3);
    WANT(found.orders, 9);
    WANT(is_near(found.order[0], 0.0) && is_near(found.order[8], 0.0) && found.order[9] == 0.0, 1);
    WANT(comtrade_measure(r, 0, 42, 2, &found), COMTRADE_DONE);
    WANT(found.first, 3);
    WANT(comtrade_measure(r, 0, 21, 1, &found), COMTRADE_NO_MEASURE); /* a sample is missing */
    WANT(comtrade_measure(r, 0, 18, 1, &found), COMTRADE_NO_MEASURE);
    WANT(comtrade_measure(r, 0, WAVE_ROWS - 1, 3, &found), COMTRADE_NO_MEASURE);
    WANT(comtrade_measure(r, 0, WAVE_ROWS - 1, UINT32_MAX, &found), COMTRADE_NO_MEASURE);
    WANT(found.first, 3);
    WANT(comtrade_measure(r, 0, WAVE_ROWS, 1, &found), COMTRADE_NO_ITEM);
    WANT(comtrade_measure(r, 1, 22, 1, &found), COMTRADE_NO_ITEM);
    WANT(comtrade_measure(r, 0, 22, 0, &found), COMTRADE_BAD_CALL);
    WANT(comtrade_measure(r, 0, 22, 1, NULL), COMTRADE_BAD_CALL);
    WANT(comtrade_measure(NULL, 0, 22, 1, &found), COMTRADE_BAD_CALL);
    found.size--;
    WANT(comtrade_measure(r, 0, 22, 1, &found), COMTRADE_BAD_SIZE);
    comtrade_close(r);
}

static void rms_edges(void) {
    double rms = 7.0;
    comtrade *r = NULL;
    WANT(opens_wave(&r), COMTRADE_DONE);
    WANT(comtrade_rms(r, 0, 1, 2, &rms), COMTRADE_NO_MEASURE); /* a sample is missing */
    WANT(comtrade_rms(r, 0, 3, 0, &rms), COMTRADE_NO_MEASURE);
    WANT(comtrade_rms(r, 0, WAVE_ROWS - 1, 2, &rms), COMTRADE_NO_ITEM);
    WANT(comtrade_rms(r, 1, 3, 1, &rms), COMTRADE_NO_ITEM);
    WANT(comtrade_rms(r, COMTRADE_ALL, 3, 1, &rms), COMTRADE_BAD_CALL);
    WANT(comtrade_rms(r, 0, 3, 1, NULL), COMTRADE_BAD_CALL);
    WANT(comtrade_rms(NULL, 0, 3, 1, &rms), COMTRADE_BAD_CALL);
    WANT(rms == 7.0, 1);
    WANT(comtrade_rms(r, 0, 3, 42, &rms), COMTRADE_DONE);
    WANT(is_near(rms, 1.0), 1);
    comtrade_close(r);
}

static void imported_edges(void) {
    static const char *const keys[] = {"revision-1991:", "sides-absent:", "years-2-digits:", "dates-mdy:"};
    struct comtrade_choices choices = {sizeof choices, NULL, COMTRADE_DATES_AS_USUAL};
    comtrade *r = NULL;
    struct comtrade_head head;
    char text[600];
    size_t needed = 0;
    double value = 0;
    WANT(imported(old_cfg, &choices, &r, NULL, 0, NULL), COMTRADE_DONE);
    WANT(comtrade_notes(r), 4);
    for (size_t k = 0; k < 4; k++) {
        WANT(comtrade_note(r, k, text, sizeof text, &needed), COMTRADE_DONE);
        WANT(needed, (long)strlen(text));
        if (strncmp(text, keys[k], strlen(keys[k])) != 0) ill += printf("note: %s\n", text);
    }
    WANT(comtrade_note(r, 4, text, sizeof text, NULL), COMTRADE_NO_ITEM);
    WANT(comtrade_note(r, 3, text, needed, NULL), COMTRADE_NO_ROOM);
    WANT(comtrade_note(NULL, 0, text, sizeof text, NULL), COMTRADE_BAD_CALL);
    head.size = sizeof head;
    WANT(comtrade_head(r, &head), COMTRADE_DONE);
    WANT(head.first == INT64_C(832852800000000), 1); /* 1996-05-23 12:00 */
    WANT(comtrade_values(r, 0, 1, 1, &value), COMTRADE_DONE);
    WANT(value == -1.0, 1);
    comtrade_close(r), r = NULL;
    choices.dates = COMTRADE_DAY_FIRST; /* there is no month 23 */
    WANT(imported(old_cfg, &choices, &r, text, sizeof text, &needed), COMTRADE_REFUSED);
    WANT(needed, (long)strlen(text));
    text[0] = '?';
    WANT(imported(old_cfg, &choices, &r, text, needed, NULL), COMTRADE_REFUSED);
    WANT(text[0], '?');
    choices.dates = 3;
    WANT(imported(old_cfg, &choices, &r, NULL, 0, NULL), COMTRADE_BAD_CALL);
    choices.dates = COMTRADE_DATES_AS_USUAL, choices.encoding = "runes";
    WANT(imported(old_cfg, &choices, &r, NULL, 0, NULL), COMTRADE_BAD_CALL);
    choices.encoding = "cp850", choices.size--;
    WANT(imported(old_cfg, &choices, &r, NULL, 0, NULL), COMTRADE_BAD_SIZE);
    WANT(comtrade_import(NULL, 1, NULL, 0, NULL, &r, NULL, 0, NULL), COMTRADE_BAD_CALL);
    WANT(comtrade_import(NULL, 0, NULL, 0, NULL, &r, NULL, 0, NULL), COMTRADE_REFUSED);
    WANT(comtrade_import_files("/no such file", NULL, NULL, &r, NULL, 0, NULL), COMTRADE_NO_FILE);
    WANT(comtrade_import_files(NULL, NULL, NULL, &r, NULL, 0, NULL), COMTRADE_BAD_CALL);
    WANT(r == NULL, 1);
    WANT(comtrade_import(cfg, cfg_length, dat, dat_length, NULL, &r, NULL, 0, NULL), COMTRADE_DONE);
    WANT(comtrade_notes(r), 0);
    comtrade_close(r);
}

static size_t contents(const char *name, uint8_t *to) {
    FILE *file = fopen(name, "rb");
    size_t length = file ? fread(to, 1, TEXT, file) : 0;
    if (!length || length == TEXT) exit(1);
    fclose(file);
    return length;
}

int main(int argc, char **argv) {
    static const struct comtrade_analog_setup channel = {"UA", "A", NULL, "kV", 0.1, 0, 0, 1, 1, -32767, 32767, false};
    static const int32_t samples[2] = {1, -2};
    static const struct comtrade_rate rate = {sizeof rate, 1000, 2};
    comtrade *record = NULL;
    uint8_t *to;
    size_t length;
    if (argc < 3) return 2;
    cfg_length = contents(argv[1], cfg), dat_length = contents(argv[2], dat);
    setup.size = sizeof setup, setup.analog = &channel, setup.analog_count = 1, setup.rates = &rate, setup.rate_count = 1;
    setup.rows = 2, setup.samples = samples, setup.line_freq = 50, setup.timemult = 1, setup.binary = true;
    WANT(opens_wave(&wave), COMTRADE_DONE);
    for (int k = 0; k < 2; k++) {
        alone = k != 0;
        ill += !refuses("comtrade_open", opens, COMTRADE_DONE) + !refuses("comtrade_open, short data", opens_short, COMTRADE_DAT_FAULT)
            + !refuses("comtrade_open, a cut head", opens_ill, COMTRADE_CFG_FAULT) + !refuses("comtrade_open, nothing", opens_nothing, COMTRADE_CFG_FAULT)
            + !refuses("comtrade_explain, a cut head", explains, COMTRADE_DONE) + !refuses("comtrade_explain", explains_nothing, COMTRADE_DONE)
            + !refuses("comtrade_write", writes, COMTRADE_DONE) + !refuses("comtrade_write, a comma", writes_ill, COMTRADE_WRITE_FAULT)
            + !refuses("comtrade_write, a far sample", writes_beyond, COMTRADE_WRITE_FAULT) + !refuses("comtrade_import", imports, COMTRADE_DONE)
            + !refuses("comtrade_import, an exact pair", imports_exact, COMTRADE_DONE)
            + !refuses("comtrade_import, no COMTRADE file", imports_ill, COMTRADE_REFUSED)
            + !refuses("comtrade_measure", measures, COMTRADE_DONE) + !refuses("comtrade_rms", squares, COMTRADE_DONE);
    }
    WANT(comtrade_open(NULL, 1, dat, dat_length, &record, NULL), COMTRADE_BAD_CALL);
    WANT(comtrade_open(cfg, cfg_length, dat, dat_length, NULL, NULL), COMTRADE_BAD_CALL);
    WANT(comtrade_open(cfg, 20, NULL, 0, &record, NULL), COMTRADE_CFG_FAULT);
    WANT(comtrade_open_files("/no such file", argv[2], &record, NULL), COMTRADE_NO_FILE);
    WANT(comtrade_open_files(NULL, argv[2], &record, NULL), COMTRADE_BAD_CALL);
    WANT(comtrade_write(NULL, &to, &length, &to, &length, NULL), COMTRADE_BAD_CALL);
    setup.size--;
    WANT(comtrade_write(&setup, &to, &length, &to, &length, NULL), COMTRADE_BAD_SIZE);
    setup.size++, setup.samples = NULL;
    WANT(comtrade_write(&setup, &to, &length, &to, &length, NULL), COMTRADE_BAD_CALL);
    words();
    imported_edges();
    measured_edges();
    rms_edges();
    comtrade_close(NULL);
    WANT(comtrade_open(cfg, cfg_length, dat, dat_length, &record, NULL), COMTRADE_DONE);
    if (record) edges(record);
    comtrade_close(record);
    comtrade_close(wave);
    return ill != 0;
}
