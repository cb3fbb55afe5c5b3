/* Says who was let in by a log, who was refused, and why, by the account book that the log began with: a row for each line that decided
 * something (docs/FORMATS.md), and how many logins the log accepted. The status is 0 if the log is clean.
 *
 * Usage: report BOOK LOG */
#include "scramotp.h"

#include <stdio.h>
#include <stdlib.h>

/* A file's bytes. */
typedef struct {
    char *at;
    size_t len;
} bytes;

/* Reads a file, or ends the program. */
static bytes read_file(const char *path)
{
    FILE *file = fopen(path, "rb");
    bytes it = {NULL, 0};
    for (size_t room = 0, more = 1; file && more > 0; it.len += more) {
        if (it.len == room) {
            room = room ? 2 * room : 4096;
            char *grown = realloc(it.at, room);
            if (!grown)
                exit(2);
            it.at = grown;
        }
        more = fread(it.at + it.len, 1, room - it.len, file);
    }
    if (!file || ferror(file) || fclose(file) != 0)
        exit(2);
    return it;
}

int main(int count, char **words)
{
    if (count != 3)
        return 2;
    bytes book = read_file(words[1]), log = read_file(words[2]), rows = {NULL, 0};
    scramotp_audited audited;
    uint32_t number = scramotp_report(book.at, book.len, log.at, log.len, NULL, 0, &rows.len, &audited);
    if (number == SCRAMOTP_NO_ROOM) {
        rows.at = malloc(rows.len);
        if (!rows.at)
            return 2;
        number = scramotp_report(book.at, book.len, log.at, log.len, rows.at, rows.len, &rows.len, &audited);
    }
    free(book.at);
    free(log.at);
    if (rows.at && number != SCRAMOTP_NO_MEMORY)
        fwrite(rows.at, 1, rows.len, stdout);
    free(rows.at);
    if (number == SCRAMOTP_OK)
        printf("logins: %llu\n", (unsigned long long)audited.accepted);
    else if (number >= SCRAMOTP_CUT && number <= SCRAMOTP_REPLY)
        printf("fault in line %llu\n", (unsigned long long)audited.line);
    else
        printf("number %u\n", (unsigned)number);
    return number == SCRAMOTP_OK ? 0 : 1;
}
