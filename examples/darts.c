/* Asks about darts of a 2 x 2 sheet with one street, of a sheet with a failing road, and of bytes that are no record. */
#include "yufqelit.h"
#include <stdio.h>

static void ask(const char *name, const uint8_t *record, size_t len, uint32_t dart)
{
    printf("%s %u: %d %d %d\n", name, (unsigned)dart, (int)plate_next(record, len, dart),
           (int)plate_previous(record, len, dart), (int)plate_opposite(record, len, dart));
}

int main(void)
{
    static const uint8_t street[] = {1, 2, 2, 0, 1, 0, 0, 0, 4, 0x02, 0x0c, 0x10, 0x01, 0x80, 0x83, 0x01, 0x06, 0x00};
    static const uint8_t failing[] = {1, 1, 1, 0, 1, 0, 0, 0, 1, 0x20, 0x00};
    static const uint8_t nothing[] = {2, 1, 1, 0, 0};
    static const uint32_t darts[] = {128, 448, 768, 576, 192, 640, 832, 256, 0, 129, 1152};
    for (size_t i = 0; i < sizeof darts / sizeof darts[0]; i++)
        ask("street", street, sizeof street, darts[i]);
    ask("failing", failing, sizeof failing, 0);
    ask("failing", failing, sizeof failing, 64);
    ask("nothing", nothing, sizeof nothing, 0);
    return 0;
}
