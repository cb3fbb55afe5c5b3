/* For cyrus.py: a server over Cyrus SASL that does what its lines say, one after another, and tells what Cyrus answers.
 *
 * Usage: cyrus_server FOLDERS     where plug-ins are; SASL_CONF_PATH in the environment names the folder with test.conf
 *
 * Lines: `version`, `store NAME PROPERTY VALUE`, `new`, `new REALM`, `start MECHANISM`, `start MECHANISM HEX`, `step HEX`. Each gets a
 * line: the result of the call; of a message also the answer in hex, or - if there is none; and the two names if the login is complete. A
 * message is a copy that is exactly as long, so that a sanitizer sees any access outside of it. */
#define _DEFAULT_SOURCE
#include <stdio.h>
#include <stdlib.h>
#include <string.h>

#include <sasl/prop.h>
#include <sasl/sasl.h>
#include <sasl/saslplug.h>

static const char *folders;

static int path_of(void *context, const char **path)
{
    (void)context;
    *path = folders;
    return SASL_OK;
}

static int logged(void *context, int level, const char *text)
{
    (void)context;
    if (level <= SASL_LOG_FAIL)
        fprintf(stderr, "%s\n", text);
    return SASL_OK;
}

typedef int (*any_call)(void);

static sasl_callback_t calls[] = {
    {SASL_CB_GETPATH, (any_call)(void (*)(void))path_of, NULL},
    {SASL_CB_LOG, (any_call)(void (*)(void))logged, NULL},
    {SASL_CB_LIST_END, NULL, NULL},
};

/* The bytes of a text in hex, in memory that has no byte more. */
static char *bytes_of(const char *hex, unsigned *len)
{
    *len = (unsigned)strlen(hex) / 2;
    char *bytes = malloc(*len == 0 ? 1 : *len);
    for (unsigned i = 0; i < *len; i++) {
        unsigned value;
        if (sscanf(hex + 2 * i, "%2x", &value) != 1)
            exit(2);
        bytes[i] = (char)value;
    }
    return bytes;
}

static int store(sasl_conn_t *conn, const char *name, const char *property, const char *value)
{
    struct propctx *properties = prop_new(0);
    const char *names[] = {property, NULL};
    int result = prop_request(properties, names);
    if (result == SASL_OK)
        result = prop_set(properties, property, value, (int)strlen(value));
    if (result == SASL_OK)
        result = sasl_auxprop_store(conn, properties, name);
    prop_dispose(&properties);
    return result;
}

static void tell(sasl_conn_t *conn, int result, const char *answer, unsigned len)
{
    const void *user = NULL, *authid = NULL;
    printf("%d ", result);
    if (result != SASL_OK && result != SASL_CONTINUE)
        answer = NULL; /* Cyrus may have freed it */
    for (unsigned i = 0; answer != NULL && i < len; i++)
        printf("%02x", (unsigned char)answer[i]);
    printf("%s", answer == NULL ? "-" : len == 0 ? "''" : "");
    if (result == SASL_OK && sasl_getprop(conn, SASL_USERNAME, &user) == SASL_OK && sasl_getprop(conn, SASL_AUTHUSER, &authid) == SASL_OK)
        printf(" %s %s", (const char *)user, (const char *)authid);
    puts("");
}

static sasl_conn_t *made(sasl_conn_t *before, const char *realm)
{
    sasl_conn_t *conn = NULL;
    sasl_dispose(&before);
    if (sasl_server_new("test", "localhost", realm, NULL, NULL, NULL, SASL_SUCCESS_DATA, &conn) != SASL_OK)
        exit(2);
    return conn;
}

int main(int count, char **words)
{
    static char line[20000];
    folders = count == 2 ? words[1] : "";
    if (sasl_server_init(calls, "test") != SASL_OK)
        return 2;
    sasl_conn_t *conn = made(NULL, NULL);
    while (fgets(line, sizeof line, stdin) != NULL) {
        char *rest = line, *word[4] = {NULL};
        line[strcspn(line, "\n")] = '\0';
        for (int i = 0; i < 4; i++)
            word[i] = i < 3 ? strsep(&rest, " ") : rest;
        if (strcmp(word[0], "new") == 0) {
            conn = made(conn, word[1]);
            printf("%d\n", SASL_OK);
        } else if (strcmp(word[0], "version") == 0) {
            int version = 0;
            sasl_version(NULL, &version);
            printf("%d.%d.%d\n", version >> 24, version >> 16 & 255, version & 65535);
        } else if (strcmp(word[0], "store") == 0) {
            printf("%d\n", store(conn, word[1], word[2], word[3]));
        } else {
            int starts = strcmp(word[0], "start") == 0;
            const char *hex = starts ? word[2] : word[1], *answer = NULL;
            unsigned len = 0, answer_len = 0;
            char *text = hex != NULL ? bytes_of(hex, &len) : NULL;
            int result = starts ? sasl_server_start(conn, word[1], text, len, &answer, &answer_len)
                                : sasl_server_step(conn, text, len, &answer, &answer_len);
            tell(conn, result, answer, answer_len);
            free(text);
        }
        fflush(stdout);
    }
    sasl_dispose(&conn);
    sasl_done();
    return 0;
}
