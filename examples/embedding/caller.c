/* Prints the contents of a pair and writes the pair again from the arrays that it read: caller CFG DAT NEWCFG NEWDAT */
#include <inttypes.h>
#include <stdio.h>
#include <stdlib.h>

#include "comtrade.h"

static struct comtrade_fault fault;

static void need(int32_t answer) {
    char words[200];
    if (answer == COMTRADE_DONE) return;
    printf("%s\n", comtrade_answer_text(answer));
    if (comtrade_fault_text(&fault, words, sizeof words, NULL) == COMTRADE_DONE) printf("%s\n", words);
    exit(1);
}

static void *room(size_t count, size_t size) {
    void *at = calloc(count + 1, size);
    if (!at) exit(1);
    return at;
}

static char *text(const comtrade *record, int32_t which, size_t channel) {
    size_t needed;
    comtrade_text(record, which, channel, NULL, 0, &needed);
    char *at = room(needed, 1);
    need(comtrade_text(record, which, channel, at, needed + 1, NULL));
    return at;
}

static void print_row(const comtrade *record, const struct comtrade_head *head, size_t row) {
    int64_t time;
    double *values = room(head->analog, sizeof *values);
    uint8_t *bits = room(head->status, 1);
    need(comtrade_times(record, row, 1, &time));
    need(comtrade_values(record, COMTRADE_ALL, row, 1, values));
    need(comtrade_bits(record, COMTRADE_ALL, row, 1, bits));
    printf("row %zu: %" PRId64 " ns:", row, time);
    for (size_t c = 0; c < head->analog; c++) values[c] == values[c] ? printf(" %.6f", values[c]) : printf(" -");
    printf(" /");
    for (size_t c = 0; c < head->status; c++) printf(" %u", bits[c]);
    printf("\n");
    free(values);
    free(bits);
}

int main(int argc, char **argv) {
    comtrade *record;
    struct comtrade_head head = {sizeof head, 0, 0, 0, 0, 0, 0, 0, 0, 0, false};
    if (argc != 5) return 2;
    need(comtrade_open_files(argv[1], argv[2], &record, &fault));
    need(comtrade_head(record, &head));
    struct comtrade_setup setup = {sizeof setup, text(record, COMTRADE_STATION, 0), text(record, COMTRADE_DEVICE, 0), NULL, head.analog, NULL,
        head.status, NULL, head.nrates, head.rows, NULL, NULL, NULL, head.line_freq, head.timemult, head.first, head.trigger, head.binary};
    printf("%s, %s: %zu analogue, %zu status, %zu rows, %s\n", setup.station, setup.device, head.analog, head.status, head.rows, head.binary ? "BINARY" : "ASCII");
    printf("%.3f Hz, times %.3f, from %" PRId64 ", trigger %" PRId64 "\n", head.line_freq, head.timemult, head.first, head.trigger);

    struct comtrade_rate *rates = room(head.rates, sizeof *rates);
    for (size_t k = 0; k < head.rates; k++) {
        rates[k].size = sizeof *rates;
        need(comtrade_rate(record, k, &rates[k]));
        printf("rate %.3f to row %" PRIu64 "\n", rates[k].samp, rates[k].endsamp);
    }
    struct comtrade_analog_setup *analog = room(head.analog, sizeof *analog);
    int32_t *samples = room(head.rows, sizeof *samples);
    double *values = room(head.rows, sizeof *values);
    for (size_t c = 0; c < head.analog; c++) {
        struct comtrade_analog said;
        said.size = sizeof said;
        need(comtrade_analog(record, c, &said));
        struct comtrade_analog_setup made = {text(record, COMTRADE_ANALOG_ID, c), text(record, COMTRADE_ANALOG_PHASE, c),
            text(record, COMTRADE_ANALOG_COMPONENT, c), text(record, COMTRADE_ANALOG_UNIT, c), said.a, said.b, said.skew, said.primary,
            said.secondary, said.min, said.max, said.on_secondary};
        analog[c] = made;
        need(comtrade_samples(record, c, 0, head.rows, samples));
        need(comtrade_values(record, c, 0, head.rows, values));
        long long sum = 0;
        size_t missing = 0;
        double most = 0;
        for (size_t k = 0; k < head.rows; k++) {
            if (samples[k] == COMTRADE_NO_SAMPLE)
                missing++;
            else
                sum += samples[k], most = values[k] > most ? values[k] : most;
        }
        printf("%s|%s|%s|%s: %.6f %.6f %.6f %.3f:%.3f%s %d to %d: %zu missing, sum %lld, most %.6f\n", made.id, made.phase, made.component, made.unit,
               said.a, said.b, said.skew, said.primary, said.secondary, said.on_secondary ? "S" : "P", said.min, said.max, missing, sum, most);
    }
    struct comtrade_status_setup *status = room(head.status, sizeof *status);
    uint8_t *bits = room(head.rows, 1);
    for (size_t c = 0; c < head.status; c++) {
        struct comtrade_status said;
        said.size = sizeof said;
        need(comtrade_status(record, c, &said));
        struct comtrade_status_setup made = {text(record, COMTRADE_STATUS_ID, c), text(record, COMTRADE_STATUS_PHASE, c),
            text(record, COMTRADE_STATUS_COMPONENT, c), said.normal};
        status[c] = made;
        need(comtrade_bits(record, c, 0, head.rows, bits));
        size_t ones = 0;
        for (size_t k = 0; k < head.rows; k++) ones += bits[k];
        printf("%s|%s|%s: %d: %zu of %zu\n", made.id, made.phase, made.component, said.normal, ones, head.rows);
    }
    print_row(record, &head, 0);
    print_row(record, &head, head.rows / 2);
    print_row(record, &head, head.rows - 1);

    uint64_t *stamps = room(head.rows, sizeof *stamps);
    int32_t *sample_table = room(head.rows * head.analog, sizeof *sample_table);
    uint8_t *bit_table = room(head.rows * head.status, 1);
    need(comtrade_stamps(record, 0, head.rows, stamps));
    need(comtrade_samples(record, COMTRADE_ALL, 0, head.rows, sample_table));
    need(comtrade_bits(record, COMTRADE_ALL, 0, head.rows, bit_table));
    comtrade_close(record);
    setup.analog = analog, setup.status = status, setup.rates = rates;
    setup.stamps = stamps, setup.samples = sample_table, setup.bits = bit_table;
    need(comtrade_write_files(&setup, argv[3], argv[4], &fault));
    return 0; /* the end of the process frees the memory */
}
