/* batch TABLE REPORTS: the answers of a port to the reports of a file, in one call of fenuschia_batch. Prints `refused N` alone; or a line
   `REFUSED VERDICT FRAMES` for each report and then a line `NUMBER LENGTH TICK` for each departure.
   Ends with 0; 2: wrong use, or something can't be read or written; 3: the table or the list of reports is refused. */

#include "bytes.h"
#include "fenuschia.h"

#include <inttypes.h>

enum { REPORT = 40, ROW = 24, MOST_HELD = 2048 };

/* So many rows of three numbers. */
static void print_rows(struct bytes b, uint64_t rows)
{
    for (size_t i = 0; i < rows; i++)
        printf("%" PRIu64 " %" PRIu64 " %" PRIu64 "\n", number(b, 3 * i), number(b, 3 * i + 1), number(b, 3 * i + 2));
}

int main(int argc, char **argv)
{
    if (argc != 3)
        fail("usage: batch TABLE REPORTS", "");
    struct bytes table = contents(argv[1]), reports = contents(argv[2]);
    size_t n = reports.length / REPORT;
    struct bytes answers = room_for(ROW * n);
    struct bytes departures = room_for(ROW * (n + MOST_HELD));
    uint32_t refused = fenuschia_batch(table.at, table.length, reports.at, reports.length,
                                       answers.at, answers.length, departures.at, departures.length);
    if (refused != 0) {
        printf("refused %" PRIu32 "\n", refused);
    } else {
        uint64_t freed = 0;
        for (size_t i = 0; i < n; i++)
            freed += number(answers, 3 * i + 2);
        print_rows(answers, n);
        print_rows(departures, freed);
    }
    end_output();
    free(table.at);
    free(reports.at);
    free(answers.at);
    free(departures.at);
    return refused == 0 ? 0 : 3;
}
