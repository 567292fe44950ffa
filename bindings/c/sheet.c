/* A sheet from standard input, and its output to standard output, by the linked library. */
#include <stdio.h>

#include "../tra.h"

static uint8_t sheet[16385]; /* one byte more than a sheet may have */
static uint8_t out[TRA_OUT_BYTES];

int main(void)
{
    size_t count = fread(sheet, 1, sizeof sheet, stdin);
    size_t used = 0;
    if (tra_sheet(sheet, count, out, sizeof out, &used) != 0)
        return 1;
    return fwrite(out, 1, used, stdout) == used ? 0 : 1;
}
