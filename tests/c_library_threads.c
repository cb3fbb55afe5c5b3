/* Makes each call of the library for C from eight threads with small stacks at once: a login as in RFC 7677, and then all others. Prints
 * how many logins are accepted, and how often all the other calls do what they are to do.
 *
 * Usage: c_library_threads TIMES
 *
 * Each thread does so TIMES times. */
#include "scramotp.h"

#include <pthread.h>
#include <stdio.h>
#include <stdlib.h>
#include <string.h>

enum { THREADS = 8, STACK = 128 * 1024 };

static const char first[] = "n,,n=user,r=rOprNGfwEbeRWgbNEkqO";
static const char nonce[] = "%hvYDpWUa2RaTCAfuxFIlj)hNlF$k0";
static const char final[] = "c=biws,r=rOprNGfwEbeRWgbNEkqO%hvYDpWUa2RaTCAfuxFIlj)hNlF$k0,p=dHzbZapWIk4jUhN+Ute9ytag9zjfMHgsqmmiz7AndVQ=";
static const char want[] = "v=6rriTRBi23WpRR/wtup+mMhUZUn/dB5nLTJRsjl95G4=";
static const uint8_t salt[16] = {91, 109, 153, 104, 157, 18, 53, 142, 236, 160, 75, 20, 18, 54, 250, 129};
static const char secret[] = "12345678901234567890";
static const uint8_t decoy_key[32] = {1, 2, 3};
static const char book[] =
    "format = 1\ndecoy_key = \"000102030405060708090a0b0c0d0e0f101112131415161718191a1b1c1d1e1f\"\ndecoy_count = 4096\n"
    "[accounts.user.sha1]\ncount = 4096\nsalt = \"4125c247e43ab1e93c6dff76\"\n"
    "stored = \"e9d94660c39d65c38fbad91c358f14da0eef2bd6\"\nserver = \"0fe09258b3ac852ba502cc62ba903eaacdbf7d31\"\n";
static const char logged[] =
    "SCRAMLOG 1\nS MECHS SCRAM-SHA-256 SCRAM-SHA-1\nC AUTH SCRAM-SHA-1 :n,,n=user,r=fyko+d2lbbFgONRv9qkxdawL\n"
    "S CONT :r=fyko+d2lbbFgONRv9qkxdawL3rfcNHYJY1ZVvWVs7j,s=QSXCR+Q6sek8bf92,i=4096\n"
    "C RESP :c=biws,r=fyko+d2lbbFgONRv9qkxdawL3rfcNHYJY1ZVvWVs7j,p=v0X8v3Bz2T0CJGbJQyF0X+HI4Ts=\n"
    "S OK :v=rmF9pqV8S7suAoZWja4dJRkFsKQ=\nC GONE\nE\n";
static const char row[] = "6 1 accepted user - SCRAM-SHA-1 -\n";
static const char line_text[] = "7 C RESP :%20\n";
static scramotp_entry entry;
static int times;

static int is_accepted(void)
{
    char challenge[SCRAMOTP_FIRST_ROOM], verdict[SCRAMOTP_FINAL_ROOM];
    size_t challenge_len, verdict_len;
    if (scramotp_server_first(&entry, first, strlen(first), nonce, strlen(nonce), challenge, sizeof challenge, &challenge_len) != 0)
        return 0;
    return scramotp_server_final(&entry, NULL, 0, first, strlen(first), challenge, challenge_len, final, strlen(final), verdict,
               sizeof verdict, &verdict_len) == 0
        && verdict_len == strlen(want) && memcmp(verdict, want, verdict_len) == 0;
}

/* Whether a client logs in by a password whose keys take one iteration, at a server with prepared keys. */
static int logs_in(void)
{
    scramotp_client client = {{"user", 4}, {"", 0}, {nonce, strlen(nonce)}, SCRAMOTP_SHA_256, 1, 1};
    char begun[SCRAMOTP_CLIENT_FIRST_ROOM], proved[SCRAMOTP_CLIENT_FINAL_ROOM];
    char challenge[SCRAMOTP_FIRST_ROOM], verdict[SCRAMOTP_FINAL_ROOM];
    size_t begun_len, challenge_len, proved_len, verdict_len;
    scramotp_entry own;
    scramotp_prepared_keys prepared;
    scramotp_names names;
    uint8_t signature[32];
    return scramotp_keys(SCRAMOTP_SHA_256, 1, salt, sizeof salt, "pencil", 6, &own) == 0
        && scramotp_prepare(&own, &prepared) == 0
        && scramotp_client_first(&client, begun, sizeof begun, &begun_len) == 0
        && scramotp_read_names(begun, begun_len, &names) == 0 && strcmp(names.name, "user") == 0
        && scramotp_server_first(&own, begun, begun_len, nonce, strlen(nonce), challenge, sizeof challenge, &challenge_len) == 0
        && scramotp_client_final(&client, "pencil", 6, challenge, challenge_len, proved, sizeof proved, &proved_len, signature) == 0
        && scramotp_server_final_prepared(&own, &prepared, NULL, 0, begun, begun_len, challenge, challenge_len, proved, proved_len, verdict,
               sizeof verdict, &verdict_len) == 0
        && scramotp_client_check(SCRAMOTP_SHA_256, signature, verdict, verdict_len) == 0;
}

/* Whether codes of RFC 4226, appendix D, and RFC 6238, appendix B, pass. */
static int passes(void)
{
    scramotp_hotp_token counts = {0, 2, 10, 5, 0, 6};
    scramotp_totp_token clock = {0, 30, 1, 1, 2, UINT64_MAX, 0, 5, 0, SCRAMOTP_SHA_1, 8};
    return scramotp_hotp(secret, 20, &counts, "755224", 6) == 0 && scramotp_hotp_sync(secret, 20, &counts, "399871", 6, "520489", 6) == 0
        && counts.next == 10 && scramotp_totp(secret, 20, &clock, 59, "94287082", 8) == 0 && clock.last == 1;
}

/* Whether a verifier is written and read, a decoy made, a line written, and a log audited and reported. */
static int is_written(void)
{
    scramotp_entry read, decoy;
    scramotp_line line = {.session = 7, .kind = SCRAMOTP_C_RESP};
    scramotp_audited audited, reported;
    char verifier[SCRAMOTP_VERIFIER_ROOM], text[100], rows[100];
    size_t verifier_len, text_len, rows_len;
    return scramotp_write_verifier(&entry, SCRAMOTP_DOVECOT, verifier, sizeof verifier, &verifier_len) == 0
        && scramotp_read_verifier(verifier, verifier_len, &read) == 0 && memcmp(read.stored_key, entry.stored_key, 32) == 0
        && scramotp_decoy(decoy_key, SCRAMOTP_SHA_1, 4096, "nobody", 6, &decoy) == 0 && decoy.salt_len == 16
        && scramotp_log_line(&line, " ", 1, NULL, 0, text, sizeof text, &text_len) == 0
        && text_len == strlen(line_text) && memcmp(text, line_text, text_len) == 0
        && scramotp_audit(book, strlen(book), logged, strlen(logged), &audited) == 0 && audited.accepted == 1
        && scramotp_report(book, strlen(book), logged, strlen(logged), rows, sizeof rows, &rows_len, &reported) == 0
        && rows_len == strlen(row) && memcmp(rows, row, rows_len) == 0;
}

/* How many logins of a thread were accepted, and how often all other calls did what they are to do. */
typedef struct {
    int accepted, others;
} done;

static void *make_calls(void *counts)
{
    done *mine = counts;
    for (int i = 0; i < times; i++) {
        mine->accepted += is_accepted();
        mine->others += logs_in() && passes() && is_written();
    }
    return NULL;
}

int main(int count, char **words)
{
    pthread_t threads[THREADS];
    pthread_attr_t small;
    done by[THREADS] = {0}, all = {0, 0};
    times = count == 2 ? atoi(words[1]) : 0;
    if (scramotp_keys(SCRAMOTP_SHA_256, 4096, salt, sizeof salt, "pencil", 6, &entry) != 0)
        return 1;
    pthread_attr_init(&small);
    pthread_attr_setstacksize(&small, STACK);
    for (int i = 0; i < THREADS; i++)
        if (pthread_create(&threads[i], &small, make_calls, &by[i]) != 0)
            return 1;
    for (int i = 0; i < THREADS; i++) {
        pthread_join(threads[i], NULL);
        all.accepted += by[i].accepted;
        all.others += by[i].others;
    }
    printf("%d threads, %d logins, %d times all other calls\n", THREADS, all.accepted, all.others);
    return 0;
}
