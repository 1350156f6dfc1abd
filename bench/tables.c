/* Writes the packed table of a name of tables.h to standard output.
   Exit status 2 where there is no such name, or a table has no room for it. */
#include "tables.h"

static Net net;

int main(int argc, char **argv)
{
    static uint8_t bytes[MOST_BYTES];
    size_t length = 0;
    if (argc == 2 && made(&net, argv[1]))
        length = packed(&net, bytes);
    if (length == 0) {
        dprintf(2, "tables: no table %s\n", argc == 2 ? argv[1] : "is named");
        return 2;
    }
    return write(1, bytes, length) == (long)length ? 0 : 2;
}
