/* Serves logins of an account whose keys are prepared once: reads the two messages of each client, a line each, and writes the server's
 * two, until the input ends. The status is 0 if the account was loaded.
 *
 * Usage: prepared VERIFIER NONCE
 *
 * There is one account: user, with a VERIFIER as PostgreSQL or Dovecot spells it. A server takes a fresh NONCE for each login. */
#include "scramotp.h"

#include <stdio.h>
#include <string.h>

/* An account, as a server keeps it in memory. Both parts are secret. */
typedef struct {
    scramotp_entry entry;
    scramotp_prepared_keys keys;
} account;

/* 32 random bytes of the server, which are the same in each login. */
static const uint8_t decoy_key[32] = {1, 2, 3};

/* Loads the account: reads its entry, and prepares its keys. A server does both as it starts, and when the password is changed. */
static uint32_t load(const char *verifier, account *user)
{
    uint32_t number = scramotp_read_verifier(verifier, strlen(verifier), &user->entry);
    return number == SCRAMOTP_OK ? scramotp_prepare(&user->entry, &user->keys) : number;
}

/* Finds the account of a name: the user's, or else a decoy, which is prepared too. */
static uint32_t find(const char *name, const account *user, account *found)
{
    *found = *user;
    if (strcmp(name, "user") == 0)
        return SCRAMOTP_OK;
    uint32_t number = scramotp_decoy(decoy_key, user->entry.mechanism, user->entry.count, name, strlen(name), &found->entry);
    return number == SCRAMOTP_OK ? scramotp_prepare(&found->entry, &found->keys) : number;
}

/* Reads a line without its end, and returns its length. */
static size_t line(char *text, int room)
{
    if (!fgets(text, room, stdin))
        return 0;
    text[strcspn(text, "\n")] = '\0';
    return strlen(text);
}

/* Serves a login, of which the first message is there. Returns the verdict. */
static uint32_t serve(const account *user, const char *nonce, const char *first, size_t first_len)
{
    char challenge[SCRAMOTP_FIRST_ROOM], final[2100], verdict[SCRAMOTP_FINAL_ROOM];
    size_t challenge_len, verdict_len;
    scramotp_names names;
    account it;
    uint32_t number = scramotp_read_names(first, first_len, &names);
    if (number == SCRAMOTP_OK)
        number = find(names.name, user, &it);
    if (number == SCRAMOTP_OK)
        number = scramotp_server_first(&it.entry, first, first_len, nonce, strlen(nonce), challenge, sizeof challenge, &challenge_len);
    if (number != SCRAMOTP_OK)
        return number;
    printf("%.*s\n", (int)challenge_len, challenge);
    fflush(stdout);

    size_t final_len = line(final, sizeof final);
    number = scramotp_server_final_prepared(&it.entry, &it.keys, NULL, 0, first, first_len, challenge, challenge_len, final, final_len,
        verdict, sizeof verdict, &verdict_len);
    if (number == SCRAMOTP_OK || SCRAMOTP_IS_REFUSAL(number))
        printf("%.*s\n", (int)verdict_len, verdict);
    return number;
}

int main(int count, char **words)
{
    if (count != 3)
        return 2;
    account user;
    uint32_t number = load(words[1], &user);
    if (number != SCRAMOTP_OK) {
        fprintf(stderr, "not loaded: %u\n", (unsigned)number);
        return 1;
    }
    char first[2100];
    for (size_t first_len; (first_len = line(first, sizeof first)) > 0;)
        fprintf(stderr, "answer: %u\n", (unsigned)serve(&user, words[2], first, first_len));
    return 0;
}
