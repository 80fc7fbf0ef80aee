/* Reads a pair through the C library: `library CFG DAT`, and with a third word hands out the values of all channels too. bench/library runs it. */
#include <comtrade.h>

#include <stdio.h>
#include <stdlib.h>

int main(int argc, char **argv) {
    comtrade *record;
    struct comtrade_fault fault;
    struct comtrade_head head = {sizeof head};
    if (argc < 3 || comtrade_open_files(argv[1], argv[2], &record, &fault) != COMTRADE_DONE) return 1;
    if (comtrade_head(record, &head) != COMTRADE_DONE) return 1;
    printf("%zu rows\n", head.rows);
    if (argc > 3) {
        double *values = malloc(head.rows * head.analog * sizeof *values);
        if (!values || comtrade_values(record, COMTRADE_ALL, 0, head.rows, values) != COMTRADE_DONE) return 1;
        printf("%g\n", values[head.rows * head.analog - 1]);
        free(values);
    }
    comtrade_close(record);
    return 0;
}
