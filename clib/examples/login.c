/* Logs a user in: reads the client's two messages, a line each, and writes the server's two. The status is 0 if the login is accepted.
 *
 * Usage: login MECHANISM SALT NONCE [ACT_AS ..]
 * Built by: cc -I clib/out clib/examples/login.c clib/out/libscramotp.a -o login
 *
 * MECHANISM is SCRAM-SHA-1 or SCRAM-SHA-256. There is one account: user, whose password is pencil, with this salt in hexadecimal. It may
 * act as the names ACT_AS. A server takes a fresh NONCE for each login, and keeps the entry of each account instead of passwords.
 *
 * The login of RFC 5802, section 5, in a shell:
 * printf '%s\n' 'n,,n=user,r=fyko+d2lbbFgONRv9qkxdawL' \
 *     'c=biws,r=fyko+d2lbbFgONRv9qkxdawL3rfcNHYJY1ZVvWVs7j,p=v0X8v3Bz2T0CJGbJQyF0X+HI4Ts=' |
 *     ./login SCRAM-SHA-1 4125c247e43ab1e93c6dff76 3rfcNHYJY1ZVvWVs7j */
#include "scramotp.h"

#include <stdio.h>
#include <string.h>

/* 32 random bytes of the server, which are the same in each login. */
static const uint8_t decoy_key[32] = {1, 2, 3};

/* Reads a line without its end, and returns its length. */
static size_t line(char *text, int room)
{
    if (!fgets(text, room, stdin))
        return 0;
    text[strcspn(text, "\n")] = '\0';
    return strlen(text);
}

/* The bytes that are written in hexadecimal. */
static size_t bytes_of(const char *hex, uint8_t *bytes, size_t room)
{
    size_t len = 0;
    unsigned byte;
    for (; len < room && sscanf(hex + 2 * len, "%2x", &byte) == 1; len++)
        bytes[len] = (uint8_t)byte;
    return len;
}

/* Says why there is no login, and returns the status. */
static int refused(uint32_t number)
{
    fprintf(stderr, "refused: %u\n", (unsigned)number);
    return 1;
}

int main(int count, char **words)
{
    if (count < 4 || count > 20)
        return 2;
    uint32_t mechanism = strcmp(words[1], "SCRAM-SHA-1") == 0 ? SCRAMOTP_SHA_1 : SCRAMOTP_SHA_256;
    uint8_t salt[64];
    size_t salt_len = bytes_of(words[2], salt, sizeof salt), act_as_len = 0;
    scramotp_bytes act_as[16];
    for (int i = 4; i < count; i++)
        act_as[act_as_len++] = (scramotp_bytes){words[i], strlen(words[i])};

    char first[2100], final[2100], challenge[SCRAMOTP_FIRST_ROOM], verdict[SCRAMOTP_FINAL_ROOM];
    size_t first_len = line(first, sizeof first), challenge_len, verdict_len;
    scramotp_names names;
    scramotp_entry entry;
    uint32_t number = scramotp_read_names(first, first_len, &names);
    if (number == SCRAMOTP_OK && strcmp(names.name, "user") == 0)
        number = scramotp_keys(mechanism, 4096, salt, salt_len, "pencil", 6, &entry);
    else if (number == SCRAMOTP_OK)
        number = scramotp_decoy(decoy_key, mechanism, 4096, names.name, strlen(names.name), &entry);
    if (number == SCRAMOTP_OK)
        number = scramotp_server_first(&entry, first, first_len, words[3], strlen(words[3]), challenge, sizeof challenge, &challenge_len);
    if (number != SCRAMOTP_OK)
        return refused(number);
    printf("%.*s\n", (int)challenge_len, challenge);
    fflush(stdout);

    size_t final_len = line(final, sizeof final);
    number = scramotp_server_final(&entry, act_as, act_as_len, first, first_len, challenge, challenge_len, final, final_len, verdict,
        sizeof verdict, &verdict_len);
    if (number == SCRAMOTP_OK || SCRAMOTP_IS_REFUSAL(number))
        printf("%.*s\n", (int)verdict_len, verdict);
    if (number != SCRAMOTP_OK)
        return refused(number);
    fprintf(stderr, "%s is logged in as %s\n", names.name, names.act_as[0] ? names.act_as : names.name);
    return 0;
}
