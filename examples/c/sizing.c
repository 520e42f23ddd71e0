/* sizing TABLE: bound, hold, window and size of each priority of a table file, by fenuschia_sizing. Prints `refused N` alone; or a header
   and eight lines. Ends with 0; 2: wrong use, or something can't be read or written; 3: the table is refused. */

#include "bytes.h"
#include "fenuschia.h"

#include <inttypes.h>

int main(int argc, char **argv)
{
    if (argc != 2)
        fail("usage: sizing TABLE", "");
    struct bytes table = contents(argv[1]), sizing = room_for(256);
    uint32_t refused = fenuschia_sizing(table.at, table.length, sizing.at, sizing.length);
    if (refused != 0) {
        printf("refused %" PRIu32 "\n", refused);
    } else {
        printf("priority bound hold window size\n");
        for (size_t p = 0; p < 8; p++)
            printf("%zu %" PRIu64 " %" PRIu64 " %" PRIu64 " %" PRIu64 "\n", p, number(sizing, p), number(sizing, 8 + p),
                   number(sizing, 16 + p), number(sizing, 24 + p));
    }
    end_output();
    free(table.at);
    free(sizing.at);
    return refused == 0 ? 0 : 3;
}
