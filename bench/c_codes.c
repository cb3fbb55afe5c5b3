/* For c_library.py: times HOTP codes of 6 digits that pass, by libscramotp and by liboath in turn.
 *
 * Usage: c_codes COUNT
 *
 * Prints the least seconds of processor time of both for COUNT codes, in five turns, and the last code. */
#include "scramotp.h"

#include <liboath/oath.h>
#include <stdio.h>
#include <stdlib.h>
#include <string.h>
#include <time.h>

static const char secret[] = "12345678901234567890";
enum { SECRET_LEN = 20, DIGITS = 6 };

static double seconds(void)
{
    return (double)clock() / CLOCKS_PER_SEC;
}

static void end(const char *why)
{
    fprintf(stderr, "c_codes: %s\n", why);
    exit(1);
}

int main(int words, char **word)
{
    size_t count = words == 2 ? strtoul(word[1], NULL, 10) : 0;
    char(*codes)[DIGITS + 1] = calloc(count + 1, sizeof *codes);
    if (count == 0 || codes == NULL || oath_init() != OATH_OK)
        end("another word is due");
    for (size_t i = 0; i < count; i++)
        if (oath_hotp_generate(secret, SECRET_LEN, i, DIGITS, 0, OATH_HOTP_DYNAMIC_TRUNCATION, codes[i]) != OATH_OK)
            end("liboath makes no code");
    double ours = 1e9, theirs = 1e9;
    for (int turn = 0; turn < 5; turn++) {
        scramotp_hotp_token token = {0, 0, 0, 5, 0, DIGITS};
        double begun = seconds();
        for (size_t i = 0; i < count; i++)
            if (scramotp_hotp(secret, SECRET_LEN, &token, codes[i], DIGITS) != SCRAMOTP_OK)
                end("libscramotp refuses a code");
        double between = seconds();
        for (size_t i = 0; i < count; i++)
            if (oath_hotp_validate(secret, SECRET_LEN, i, 0, codes[i]) != 0)
                end("liboath refuses a code");
        double done = seconds();
        ours = between - begun < ours ? between - begun : ours;
        theirs = done - between < theirs ? done - between : theirs;
    }
    printf("%f %f %s\n", ours, theirs, codes[count - 1]);
    free(codes);
    return oath_done() == OATH_OK ? 0 : 1;
}
