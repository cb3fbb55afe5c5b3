/* Logs in at a server: writes the client's two messages, a line each, and reads the server's two. The status is 0 if the server has
 * accepted the login and has shown that it has the keys of the password.
 *
 * Usage: client MECHANISM NAME ACT_AS NONCE
 *
 * MECHANISM is SCRAM-SHA-1 or SCRAM-SHA-256, and ACT_AS is empty to act as NAME. The first line that is read is the password. A client
 * takes a fresh NONCE for each login. */
#include "scramotp.h"

#include <stdio.h>
#include <string.h>

/* Reads a line without its end, and returns its length. */
static size_t line(char *text, int room)
{
    if (!fgets(text, room, stdin))
        return 0;
    text[strcspn(text, "\n")] = '\0';
    return strlen(text);
}

/* Writes a line. */
static void say(const char *text, size_t len)
{
    printf("%.*s\n", (int)len, text);
    fflush(stdout);
}

int main(int count, char **words)
{
    if (count != 5)
        return 2;
    scramotp_client client = {
        .name = {words[2], strlen(words[2])},
        .act_as = {words[3], strlen(words[3])},
        .nonce = {words[4], strlen(words[4])},
        .mechanism = strcmp(words[1], "SCRAM-SHA-1") == 0 ? SCRAMOTP_SHA_1 : SCRAMOTP_SHA_256,
        .least = 4096,
        .most = 1000000,
    };
    char password[1100], first[SCRAMOTP_CLIENT_FIRST_ROOM], challenge[2100], final[SCRAMOTP_CLIENT_FINAL_ROOM], verdict[2100];
    size_t password_len = line(password, sizeof password), first_len, challenge_len, final_len, verdict_len;
    uint8_t signature[32];

    uint32_t number = scramotp_client_first(&client, first, sizeof first, &first_len);
    if (number == SCRAMOTP_OK) {
        say(first, first_len);
        challenge_len = line(challenge, sizeof challenge);
        number = scramotp_client_final(&client, password, password_len, challenge, challenge_len, final, sizeof final, &final_len,
            signature);
    }
    if (number == SCRAMOTP_OK) {
        say(final, final_len);
        verdict_len = line(verdict, sizeof verdict);
        number = scramotp_client_check(client.mechanism, signature, verdict, verdict_len);
    }
    if (number != SCRAMOTP_OK) {
        fprintf(stderr, "refused: %u\n", (unsigned)number);
        return 1;
    }
    fprintf(stderr, "logged in as %s\n", words[3][0] ? words[3] : words[2]);
    return 0;
}
