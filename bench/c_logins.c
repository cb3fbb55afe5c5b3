/* For c_library.py: times whole logins at a server, by libscramotp, by it with prepared keys, and by libgsasl in turn.
 *
 * Usage: c_logins COUNT MECHANISM SALT NONCE FIRST CHALLENGE FINAL VERDICT STORED SERVER
 *
 * The password is pencil, and the count 4096. SALT, STORED and SERVER are in base64, as libgsasl has them, and NONCE is the base64 of 18
 * bytes. Each answer is compared. Prints the least seconds of processor time of each for COUNT logins, in five turns. */
#include "scramotp.h"

#include <gsasl.h>
#include <stdio.h>
#include <stdlib.h>
#include <string.h>
#include <time.h>

enum { COUNT = 1, MECHANISM, SALT, NONCE, FIRST, CHALLENGE, FINAL, VERDICT, STORED, SERVER, WORDS };
static char **word;
static char *nonce_bytes;

static void end(const char *why)
{
    fprintf(stderr, "c_logins: %s\n", why);
    exit(1);
}

static void compare(const char *text, size_t len, int at)
{
    if (len != strlen(word[at]) || memcmp(text, word[at], len) != 0)
        end("another answer is due");
}

/* Stands before the library's own, so that both servers send the same challenge. */
int gsasl_nonce(char *data, size_t len)
{
    memcpy(data, nonce_bytes, len);
    return GSASL_OK;
}

static int asked(Gsasl *context, Gsasl_session *session, Gsasl_property property)
{
    (void)context;
    switch (property) {
    case GSASL_SCRAM_ITER: return gsasl_property_set(session, property, "4096");
    case GSASL_SCRAM_SALT: return gsasl_property_set(session, property, word[SALT]);
    case GSASL_SCRAM_STOREDKEY: return gsasl_property_set(session, property, word[STORED]);
    case GSASL_SCRAM_SERVERKEY: return gsasl_property_set(session, property, word[SERVER]);
    default: return GSASL_NO_CALLBACK;
    }
}

static void by_gsasl(Gsasl *context)
{
    Gsasl_session *session;
    char *text;
    size_t len;
    if (gsasl_server_start(context, word[MECHANISM], &session) != GSASL_OK)
        end("libgsasl does not begin");
    if (gsasl_step(session, word[FIRST], strlen(word[FIRST]), &text, &len) != GSASL_NEEDS_MORE)
        end("libgsasl refuses the first message");
    compare(text, len, CHALLENGE);
    gsasl_free(text);
    if (gsasl_step(session, word[FINAL], strlen(word[FINAL]), &text, &len) != GSASL_OK)
        end("libgsasl refuses the final message");
    compare(text, len, VERDICT);
    gsasl_free(text);
    gsasl_finish(session);
}

/* The keys may be prepared, or NULL. */
static void by_scramotp(const scramotp_entry *entry, const scramotp_prepared_keys *prepared)
{
    char challenge[SCRAMOTP_FIRST_ROOM], verdict[SCRAMOTP_FINAL_ROOM];
    size_t challenge_len, verdict_len, first_len = strlen(word[FIRST]);
    if (scramotp_server_first(entry, word[FIRST], first_len, word[NONCE], strlen(word[NONCE]), challenge, sizeof challenge, &challenge_len)
        != SCRAMOTP_OK)
        end("libscramotp refuses the first message");
    compare(challenge, challenge_len, CHALLENGE);
    uint32_t number = prepared
        ? scramotp_server_final_prepared(entry, prepared, NULL, 0, word[FIRST], first_len, challenge, challenge_len, word[FINAL],
            strlen(word[FINAL]), verdict, sizeof verdict, &verdict_len)
        : scramotp_server_final(entry, NULL, 0, word[FIRST], first_len, challenge, challenge_len, word[FINAL], strlen(word[FINAL]), verdict,
            sizeof verdict, &verdict_len);
    if (number != SCRAMOTP_OK)
        end("libscramotp refuses the final message");
    compare(verdict, verdict_len, VERDICT);
}

static double seconds(void)
{
    return (double)clock() / CLOCKS_PER_SEC;
}

int main(int words, char **given)
{
    Gsasl *context;
    scramotp_entry entry;
    scramotp_prepared_keys prepared;
    char *salt;
    size_t salt_len, nonce_len;
    word = given;
    if (words != WORDS || gsasl_init(&context) != GSASL_OK
        || gsasl_base64_from(word[SALT], strlen(word[SALT]), &salt, &salt_len) != GSASL_OK
        || gsasl_base64_from(word[NONCE], strlen(word[NONCE]), &nonce_bytes, &nonce_len) != GSASL_OK || nonce_len != 18)
        end("another word is due");
    gsasl_callback_set(context, asked);
    uint32_t mechanism = strcmp(word[MECHANISM], "SCRAM-SHA-1") == 0 ? SCRAMOTP_SHA_1 : SCRAMOTP_SHA_256;
    if (scramotp_keys(mechanism, 4096, salt, salt_len, "pencil", 6, &entry) != SCRAMOTP_OK
        || scramotp_prepare(&entry, &prepared) != SCRAMOTP_OK)
        end("there are no keys");
    double ours = 1e9, by_prepared = 1e9, theirs = 1e9;
    for (int turn = 0, count = atoi(word[COUNT]); turn < 5; turn++) {
        double begun = seconds();
        for (int i = 0; i < count; i++)
            by_scramotp(&entry, NULL);
        double after_ours = seconds();
        for (int i = 0; i < count; i++)
            by_scramotp(&entry, &prepared);
        double between = seconds();
        for (int i = 0; i < count; i++)
            by_gsasl(context);
        double done = seconds();
        ours = after_ours - begun < ours ? after_ours - begun : ours;
        by_prepared = between - after_ours < by_prepared ? between - after_ours : by_prepared;
        theirs = done - between < theirs ? done - between : theirs;
    }
    printf("%f %f %f\n", ours, by_prepared, theirs);
    gsasl_free(salt);
    gsasl_free(nonce_bytes);
    gsasl_done(context);
    return 0;
}
