/* Runs the blocks of code in scramotp.h, which c_library.py puts into server.inc, client.inc and code.inc, as they stand.
 *
 * Usage: c_header_blocks server NONCE
 *        c_header_blocks client NONCE
 *        c_header_blocks code CODE
 *
 * What is received are lines of the input, and what is sent are lines of the output. The password is pencil, and the account user. */
#include "scramotp.h"

#include <stdio.h>
#include <string.h>
#include <time.h>

enum { accepted, refused };

/* A line: also its LF and a NUL. */
enum { LINE = SCRAMOTP_MOST_RECEIVED + 2 };

static size_t get(char *text)
{
    if (!fgets(text, LINE, stdin))
        return 0;
    text[strcspn(text, "\n")] = '\0';
    return strlen(text);
}

static void put(const char *text, size_t len)
{
    printf("%.*s\n", (int)len, text);
    fflush(stdout);
}

static int fill(const char *name, scramotp_entry *entry)
{
    static const uint8_t salt[16] = {91, 109, 153, 104, 157, 18, 53, 142, 236, 160, 75, 20, 18, 54, 250, 129};
    return strcmp(name, "user") == 0 && scramotp_keys(SCRAMOTP_SHA_256, 4096, salt, sizeof salt, "pencil", 6, entry) == SCRAMOTP_OK;
}

static int serve(const char *nonce)
{
    static const uint8_t decoy_key[32] = {1, 2, 3};
    char first[LINE], final[LINE], challenge[SCRAMOTP_FIRST_ROOM], verdict[SCRAMOTP_FINAL_ROOM];
    size_t first_len, final_len, challenge_len, verdict_len;
    scramotp_names names;
    scramotp_entry entry;
    uint32_t number;
#include "server.inc"
}

static int log_in(const char *nonce)
{
    static const char password[] = "pencil";
    const size_t password_len = 6;
    char challenge[LINE], verdict[LINE], first[SCRAMOTP_CLIENT_FIRST_ROOM], final[SCRAMOTP_CLIENT_FINAL_ROOM];
    size_t first_len, final_len, challenge_len, verdict_len;
    uint8_t signature[32];
#include "client.inc"
}

static void lock(int account)
{
    printf("lock %d\n", account);
}

static void unlock(int account)
{
    printf("unlock %d\n", account);
}

static int store(int account, const scramotp_totp_token *token)
{
    printf("store %d, failures %u\n", account, (unsigned)token->failures);
    return 1;
}

/* Judges the same code twice. */
static void judge(const char *code)
{
    static const char secret[] = "12345678901234567890";
    scramotp_totp_token token = {0, 30, 1, 1, 2, UINT64_MAX, 0, 5, 0, SCRAMOTP_SHA_1, 6};
    const int account = 7;
    uint32_t number;
    for (int i = 0; i < 2; i++) {
#include "code.inc"
        printf("%u\n", (unsigned)number);
    }
}

int main(int count, char **words)
{
    if (count != 3)
        return 2;
    if (strcmp(words[1], "server") == 0)
        return serve(words[2]);
    if (strcmp(words[1], "client") == 0)
        return log_in(words[2]);
    judge(words[2]);
    return 0;
}
