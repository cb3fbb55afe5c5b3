/* Serves a login as login.c does, keeps a log of it, and audits the log: prints the log, and then what the audit says.
 *
 * Usage: logged MECHANISM SALT NONCE [forge]
 *
 * It reads the client's two messages, a line each. With the word forge it is at fault: its log says that the login was accepted, whatever
 * the verdict was. The status is 0 if the log is clean. */
#include "scramotp.h"

#include <stdio.h>
#include <stdlib.h>
#include <string.h>

static const uint8_t decoy_key[32] = {1, 2, 3};
static char logged[1 << 16] = SCRAMOTP_LOG_BEGIN;
static size_t logged_len = sizeof SCRAMOTP_LOG_BEGIN - 1;

/* Adds a line to the log. A server with its own store writes it to the log's file, and then to the client. */
static void note(uint32_t kind, const char *text, size_t text_len, const char *more, size_t more_len)
{
    scramotp_line line = {.session = 1, .kind = kind};
    size_t len = 0;
    if (scramotp_log_line(&line, text, text_len, more, more_len, logged + logged_len, sizeof logged - logged_len, &len) != SCRAMOTP_OK)
        exit(2);
    logged_len += len;
}

/* Reads a line without its end, and returns its length. */
static size_t line(char *text, int room)
{
    if (!fgets(text, room, stdin))
        return 0;
    text[strcspn(text, "\n")] = '\0';
    return strlen(text);
}

/* Writes bytes in hexadecimal. */
static const char *hex(char *text, const uint8_t *bytes, size_t len)
{
    for (size_t i = 0; i < len; i++)
        snprintf(text + 2 * i, 3, "%02x", bytes[i]);
    return text;
}

/* The text of the account book that the log is judged by: one account, user. */
static size_t book_of(const scramotp_entry *it, char *text, size_t room)
{
    char key[65], salt[129], stored[129], server[129];
    int len = snprintf(text, room,
        "format = 1\ndecoy_key = \"%s\"\ndecoy_count = 4096\n\n[accounts.user]\nact_as = []\n\n[accounts.user.%s]\n"
        "count = %u\nsalt = \"%s\"\nstored = \"%s\"\nserver = \"%s\"\n",
        hex(key, decoy_key, sizeof decoy_key), it->mechanism == SCRAMOTP_SHA_1 ? "sha1" : "sha256", (unsigned)it->count,
        hex(salt, it->salt, it->salt_len), hex(stored, it->stored_key, it->key_len), hex(server, it->server_key, it->key_len));
    return (size_t)len;
}

/* Serves the login, of which the first message is there. Returns the verdict. */
static uint32_t serve(const scramotp_entry *entry, const char *nonce, const char *first, size_t first_len, int forge)
{
    char challenge[SCRAMOTP_FIRST_ROOM], final[2100], verdict[SCRAMOTP_FINAL_ROOM];
    size_t challenge_len = 0, verdict_len = 0;
    uint32_t number = scramotp_server_first(entry, first, first_len, nonce, strlen(nonce), challenge, sizeof challenge, &challenge_len);
    if (number != SCRAMOTP_OK)
        return number;
    note(SCRAMOTP_S_CONT, challenge, challenge_len, NULL, 0);
    size_t final_len = line(final, sizeof final);
    note(SCRAMOTP_C_RESP, final, final_len, NULL, 0);
    number = scramotp_server_final(entry, NULL, 0, first, first_len, challenge, challenge_len, final, final_len, verdict, sizeof verdict,
        &verdict_len);
    if (number == SCRAMOTP_OK || SCRAMOTP_IS_REFUSAL(number))
        note(forge || number == SCRAMOTP_OK ? SCRAMOTP_S_OK : SCRAMOTP_S_NO, verdict, verdict_len, NULL, 0);
    return forge ? SCRAMOTP_OK : number;
}

int main(int count, char **words)
{
    if (count < 4 || count > 5)
        return 2;
    uint32_t mechanism = strcmp(words[1], "SCRAM-SHA-1") == 0 ? SCRAMOTP_SHA_1 : SCRAMOTP_SHA_256;
    uint8_t salt[64];
    size_t salt_len = 0;
    for (unsigned byte; salt_len < sizeof salt && sscanf(words[2] + 2 * salt_len, "%2x", &byte) == 1; salt_len++)
        salt[salt_len] = (uint8_t)byte;
    scramotp_entry account, entry;
    if (scramotp_keys(mechanism, 4096, salt, salt_len, "pencil", 6, &account) != SCRAMOTP_OK)
        return 2;
    char first[2100], book[1200];
    size_t first_len = line(first, sizeof first), book_len = book_of(&account, book, sizeof book);
    note(SCRAMOTP_S_MECHS, NULL, 0, NULL, 0);
    note(SCRAMOTP_C_AUTH_WITH, words[1], strlen(words[1]), first, first_len);

    scramotp_names names;
    uint32_t number = scramotp_read_names(first, first_len, &names);
    entry = account;
    if (number == SCRAMOTP_OK && strcmp(names.name, "user") != 0)
        number = scramotp_decoy(decoy_key, mechanism, 4096, names.name, strlen(names.name), &entry);
    if (number == SCRAMOTP_OK)
        number = serve(&entry, words[3], first, first_len, count == 5);
    if (number == SCRAMOTP_OK)
        note(SCRAMOTP_C_GONE, NULL, 0, NULL, 0);
    else if (!SCRAMOTP_IS_REFUSAL(number))
        note(SCRAMOTP_S_NO, NULL, 0, NULL, 0);
    note(SCRAMOTP_E, NULL, 0, NULL, 0);

    scramotp_audited audited;
    number = scramotp_audit(book, book_len, logged, logged_len, &audited);
    fwrite(logged, 1, logged_len, stdout);
    if (number == SCRAMOTP_OK)
        printf("clean: accepted %u\n", (unsigned)audited.accepted);
    else
        printf("line %u is at fault: %u\n", (unsigned)audited.line, (unsigned)number);
    return number == SCRAMOTP_OK ? 0 : 1;
}
