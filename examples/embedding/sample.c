/* Prints the first analogue channel of a record: sample CFG DAT */
#include <comtrade.h>
#include <stdio.h>
#include <stdlib.h>

static int32_t print_channel(const comtrade *record) {
    char id[65], unit[65];
    struct comtrade_head head;
    head.size = sizeof head;
    int32_t answer = comtrade_head(record, &head);
    if (answer == COMTRADE_DONE)
        answer = comtrade_text(record, COMTRADE_ANALOG_ID, 0, id, sizeof id, NULL);
    if (answer == COMTRADE_DONE)
        answer = comtrade_text(record, COMTRADE_ANALOG_UNIT, 0, unit, sizeof unit, NULL);
    if (answer != COMTRADE_DONE) return answer;

    /* one more than the rows: a record may have none */
    int64_t *times = (int64_t *)malloc((head.rows + 1) * sizeof *times);
    double *values = (double *)malloc((head.rows + 1) * sizeof *values);
    answer = times && values ? COMTRADE_DONE : COMTRADE_NO_MEMORY;
    if (answer == COMTRADE_DONE) answer = comtrade_times(record, 0, head.rows, times);
    if (answer == COMTRADE_DONE) answer = comtrade_values(record, 0, 0, head.rows, values);
    if (answer == COMTRADE_DONE)
        for (size_t k = 0; k < head.rows; k++)
            printf("%.6f s: %s %.3f %s\n", (double)times[k] / 1e9, id, values[k], unit);
    free(times);
    free(values);
    return answer;
}

int main(int argc, char **argv) {
    if (argc != 3) {
        fprintf(stderr, "usage: sample CFG DAT\n");
        return 2;
    }
    comtrade *record;
    struct comtrade_fault fault = {0, 0, 0};
    int32_t answer = comtrade_open_files(argv[1], argv[2], &record, &fault);
    if (answer == COMTRADE_DONE) {
        answer = print_channel(record);
        comtrade_close(record);
    }
    if (answer == COMTRADE_DONE) return 0;

    char where[200];
    fprintf(stderr, "error: %s\n", comtrade_answer_text(answer));
    if (fault.kind != 0 && comtrade_fault_text(&fault, where, sizeof where, NULL) == COMTRADE_DONE)
        fprintf(stderr, "%s\n", where);
    return 1;
}
