/* A journal's lines from standard input, and the reply to each to standard output, by the linked library. */
#include <stdio.h>

#include "../tra.h"

static uint64_t book[TRA_BOOK_WORDS];
static uint32_t entries[TRA_REGISTER_WORDS];
static uint32_t room[TRA_ROOM_WORDS];
static uint8_t line[65537]; /* one byte more than a line may have */
static uint8_t out[TRA_OUT_BYTES];

/* The next line without its byte 10, as far as it fits; its length, or -1 at the end. A line that the end cuts short is faulty,
 * and so is a longer one: both are given as a line that has not the form. */
static long next_line(void)
{
    size_t count = 0;
    int byte;
    while ((byte = getchar()) != EOF && byte != '\n')
        if (count < sizeof line)
            line[count++] = (uint8_t)byte;
    if (byte == EOF)
        return count == 0 ? -1 : 0;
    return (long)count;
}

int main(void)
{
    int64_t account = 0;
    long count;
    printf("# engine release %u rules %u\n", (unsigned)tra_release(), (unsigned)tra_rules());
    while ((count = next_line()) >= 0) {
        size_t used = 0;
        uint32_t refused = tra_line(book, TRA_BOOK_WORDS, &account, entries, TRA_REGISTER_WORDS, line, (size_t)count, room,
                                    TRA_ROOM_WORDS, out, sizeof out, &used);
        if (refused != 0 || fwrite(out, 1, used, stdout) != used)
            return 1;
    }
    return 0;
}
