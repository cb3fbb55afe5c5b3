/* Judges one-time codes: prints the number for each, and then the token.
 *
 * Usage: code hotp NEXT CODE ..
 *        code sync NEXT FIRST SECOND
 *        code totp MOMENT CODE ..
 *
 * The secret is that of RFC 4226, appendix D. A HOTP token begins at the counter NEXT; a TOTP token has 8 digits and a step of 30 seconds,
 * as in RFC 6238, appendix B. A server stores the token before it acts on a pass. */
#include "scramotp.h"

#include <inttypes.h>
#include <stdio.h>
#include <stdlib.h>
#include <string.h>

static const char secret[] = "12345678901234567890";
enum { SECRET_LEN = 20 };

static int judge_hotp(uint64_t next, int count, char **codes)
{
    scramotp_hotp_token token = {next, 2, 10, 5, 0, 6};
    for (int i = 0; i < count; i++)
        printf("%u\n", (unsigned)scramotp_hotp(secret, SECRET_LEN, &token, codes[i], strlen(codes[i])));
    return printf("next %" PRIu64 ", failures %" PRIu64 "\n", token.next, token.failures) < 0;
}

static int judge_pair(uint64_t next, const char *first, const char *second)
{
    scramotp_hotp_token token = {next, 2, 10, 5, 0, 6};
    printf("%u\n", (unsigned)scramotp_hotp_sync(secret, SECRET_LEN, &token, first, strlen(first), second, strlen(second)));
    return printf("next %" PRIu64 ", failures %" PRIu64 "\n", token.next, token.failures) < 0;
}

static int judge_totp(uint64_t moment, int count, char **codes)
{
    scramotp_totp_token token = {0, 30, 1, 1, 2, UINT64_MAX, 0, 5, 0, SCRAMOTP_SHA_1, 8};
    for (int i = 0; i < count; i++)
        printf("%u\n", (unsigned)scramotp_totp(secret, SECRET_LEN, &token, moment, codes[i], strlen(codes[i])));
    return printf("last %" PRIu64 ", drift %" PRId64 ", failures %" PRIu64 "\n", token.last, token.drift, token.failures) < 0;
}

int main(int count, char **words)
{
    if (count < 4)
        return 2;
    uint64_t number = strtoull(words[2], NULL, 10);
    if (strcmp(words[1], "hotp") == 0)
        return judge_hotp(number, count - 3, words + 3);
    if (strcmp(words[1], "totp") == 0)
        return judge_totp(number, count - 3, words + 3);
    return count == 5 ? judge_pair(number, words[3], words[4]) : 2;
}
