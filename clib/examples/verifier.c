/* Spells verifiers of PostgreSQL or Dovecot, a line each, as one of the two does. The status is 0 if each line is a verifier.
 *
 * Usage: verifier postgres
 *        verifier dovecot
 *
 * For instance the lines of `SELECT rolpassword FROM pg_authid`, to give users their passwords in Dovecot too. */
#include "scramotp.h"

#include <stdio.h>
#include <string.h>

int main(int count, char **words)
{
    if (count != 2 || (strcmp(words[1], "postgres") != 0 && strcmp(words[1], "dovecot") != 0))
        return 2;
    uint32_t spelling = strcmp(words[1], "postgres") == 0 ? SCRAMOTP_POSTGRES : SCRAMOTP_DOVECOT;
    char line[1024], out[SCRAMOTP_VERIFIER_ROOM];
    int status = 0;
    while (fgets(line, sizeof line, stdin)) {
        scramotp_entry entry;
        size_t out_len;
        uint32_t number = scramotp_read_verifier(line, strcspn(line, "\n"), &entry);
        if (number == SCRAMOTP_OK)
            number = scramotp_write_verifier(&entry, spelling, out, sizeof out, &out_len);
        if (number == SCRAMOTP_OK) {
            printf("%.*s\n", (int)out_len, out);
        } else {
            fprintf(stderr, "refused: %u\n", (unsigned)number);
            status = 1;
        }
    }
    return status;
}
