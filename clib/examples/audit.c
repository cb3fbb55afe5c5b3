/* Judges a log by the account book that it began with. The status is 0 if the log is clean.
 *
 * Usage: audit BOOK LOG */
#include "scramotp.h"

#include <stdio.h>
#include <stdlib.h>

/* A file's bytes. */
typedef struct {
    char *at;
    size_t len;
} bytes;

/* Reads a file, or ends the program. */
static bytes read_file(const char *path)
{
    FILE *file = fopen(path, "rb");
    bytes it = {NULL, 0};
    for (size_t room = 0, more = 1; file && more > 0; it.len += more) {
        if (it.len == room) {
            room = room ? 2 * room : 4096;
            char *grown = realloc(it.at, room);
            if (!grown)
                exit(2);
            it.at = grown;
        }
        more = fread(it.at + it.len, 1, room - it.len, file);
    }
    if (!file || ferror(file) || fclose(file) != 0)
        exit(2);
    return it;
}

int main(int count, char **words)
{
    static const char *const reasons[] = {"cut", "not a line", "order", "mechs", "challenge", "outcome", "reply"};
    if (count != 3)
        return 2;
    bytes book = read_file(words[1]), log = read_file(words[2]);
    scramotp_audited audited;
    uint32_t number = scramotp_audit(book.at, book.len, log.at, log.len, &audited);
    free(book.at);
    free(log.at);
    if (number == SCRAMOTP_OK)
        printf("clean sessions=%llu accepted=%llu codes=%llu\n", (unsigned long long)audited.sessions,
            (unsigned long long)audited.accepted, (unsigned long long)audited.codes_passed);
    else if (number >= SCRAMOTP_CUT && number <= SCRAMOTP_REPLY)
        printf("line %llu: %s\n", (unsigned long long)audited.line, reasons[number - SCRAMOTP_CUT]);
    else
        printf("fault %u\n", (unsigned)number);
    return number == SCRAMOTP_OK ? 0 : 1;
}
