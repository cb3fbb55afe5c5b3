/* A plug-in for Cyrus SASL: the server's side of SCRAM-SHA-256 and SCRAM-SHA-1, judged by libscramotp. README.md says how to use it.
 *
 * Cyrus calls `step` with each message of the client. The library keeps nothing between its calls, so a login keeps the messages here. */
#define _DEFAULT_SOURCE
#include <errno.h>
#include <stdlib.h>
#include <string.h>
#include <sys/random.h>

#include <sasl/sasl.h>
#include <sasl/saslplug.h>

#include "scramotp.h"

/* The most bytes of a client's first message, of a base64 text of 64 bytes, and the count unless an option says another. */
enum { FIRST_LEN = 2048, BASE64_LEN = 88, COUNT = 4096 };

/* The properties in which a store has the secret of the account that logs in. */
enum { PASSWORD, KEYS, PROPERTIES };
static const char *properties[] = {"*userPassword", "*authPassword", NULL};

typedef struct {
    const char *name;
    uint32_t number;
    size_t key_len;
} mechanism;

enum { MECHANISMS = 2 };
static mechanism mechanisms[MECHANISMS] = {{"SCRAM-SHA-256", SCRAMOTP_SHA_256, 32}, {"SCRAM-SHA-1", SCRAMOTP_SHA_1, 20}};

/* What the options of the service say. */
typedef struct {
    uint8_t decoy_key[32];
    uint32_t count;
    const char **wanted; /* those of the properties that are looked up: all, or only the keys */
} settings;

/* A login. */
typedef struct {
    const mechanism *of;
    enum { BEGUN, ASKED, CHALLENGED, OVER } state;
    scramotp_names names;
    scramotp_entry entry;
    size_t first_len, challenge_len;
    char first[FIRST_LEN];
    char challenge[SCRAMOTP_FIRST_ROOM];
    char verdict[SCRAMOTP_FINAL_ROOM + 1]; /* with a NUL after it */
} login;

/* The key of decoys, unless an option has one. */
static uint8_t own_key[32];

/* ---- the options */

/* The value of an option, or NULL if it is not set. */
static const char *option(const sasl_utils_t *utils, const char *of, const char *name)
{
    const char *value = NULL;
    return utils->getopt(utils->getopt_context, of, name, &value, NULL) == SASL_OK ? value : NULL;
}

/* The value of a hexadecimal digit, or -1. */
static int digit(char c)
{
    static const char digits[] = "0123456789abcdef";
    const char *at = c != '\0' ? strchr(digits, c) : NULL;
    return at != NULL ? (int)(at - digits) : -1;
}

/* Reads 32 bytes as 64 hexadecimal digits. */
static int read_hex(const char *text, uint8_t to[32])
{
    if (strlen(text) != 64)
        return 0;
    for (size_t i = 0; i < 32; i++) {
        int high = digit(text[2 * i]), low = digit(text[2 * i + 1]);
        if (high < 0 || low < 0)
            return 0;
        to[i] = (uint8_t)(high << 4 | low);
    }
    return 1;
}

/* Reads a number from 1 to 2^32 - 1, and moves past it. */
static int read_count(const char **at, uint32_t *count)
{
    char *end;
    if (**at < '1' || **at > '9')
        return 0;
    errno = 0;
    unsigned long long value = strtoull(*at, &end, 10);
    if (errno != 0 || value > UINT32_MAX)
        return 0;
    *at = end;
    *count = (uint32_t)value;
    return 1;
}

/* Reads the options. A wrong one is logged, and lets nobody log in. */
static int read_settings(const sasl_utils_t *utils, const mechanism *of, settings *to)
{
    const char *key = option(utils, NULL, "scramotp_decoy_key");
    const char *count = option(utils, of->name, "scram_iteration_counter");
    const char *store = option(utils, NULL, "scramotp_store");
    memcpy(to->decoy_key, own_key, sizeof own_key);
    to->count = COUNT;
    to->wanted = store == NULL || strcmp(store, "passwords") == 0 ? properties : properties + KEYS;
    const char *wrong = NULL;
    if (key != NULL && !read_hex(key, to->decoy_key))
        wrong = "scramotp_decoy_key is not 64 of 0 to 9 and a to f";
    else if (count != NULL && (!read_count(&count, &to->count) || *count != '\0'))
        wrong = "scram_iteration_counter is not 1 to 4294967295";
    else if (to->wanted != properties && strcmp(store, "keys") != 0)
        wrong = "scramotp_store is neither passwords nor keys";
    if (wrong != NULL)
        utils->log(utils->conn, SASL_LOG_ERR, "scramotp: %s", wrong);
    return wrong == NULL;
}

/* ---- the account */

/* Where a text goes on after this character with any spaces around it, or NULL if the character is not there. */
static const char *past(const char *at, char c)
{
    at += strspn(at, " ");
    return *at == c ? at + 1 + strspn(at + 1, " ") : NULL;
}

/* Reads base64 up to `$`, `:` or a space, and moves past it. Returns how many bytes it has, or 0 if it is none of 1 to 64 bytes. */
static size_t read_base64(const sasl_utils_t *utils, const char **at, uint8_t to[64])
{
    char bytes[66]; /* decode64 wants room for one more byte, and writes a NUL after that */
    unsigned len = 0;
    size_t text_len = strcspn(*at, "$: ");
    if (text_len == 0 || text_len > BASE64_LEN || utils->decode64(*at, (unsigned)text_len, bytes, 65, &len) != SASL_OK)
        len = 0;
    memcpy(to, bytes, len);
    explicit_bzero(bytes, sizeof bytes);
    *at += text_len;
    return len;
}

/* Reads the keys of a mechanism in the form `SCRAM-SHA-256$COUNT:SALT$STORED KEY:SERVER KEY` of RFC 5803. */
static int read_keys(const sasl_utils_t *utils, const mechanism *of, const char *at, scramotp_entry *entry)
{
    size_t name_len = strlen(of->name);
    scramotp_entry it = {.mechanism = of->number, .key_len = of->key_len};
    at += strspn(at, " ");
    int is_read = strncmp(at, of->name, name_len) == 0 && (at = past(at + name_len, '$')) != NULL
        && read_count(&at, &it.count) && *at++ == ':'
        && (it.salt_len = read_base64(utils, &at, it.salt)) != 0 && (at = past(at, '$')) != NULL
        && read_base64(utils, &at, it.stored_key) == of->key_len && *at++ == ':'
        && read_base64(utils, &at, it.server_key) == of->key_len && at[strspn(at, " ")] == '\0';
    if (is_read)
        *entry = it;
    explicit_bzero(&it, sizeof it);
    return is_read;
}

/* Makes the entry that a plain password has by the decoy's salt and count, or only takes as long, if there is no password. */
static int take_password(const mechanism *of, const char *password, scramotp_entry *entry)
{
    scramotp_entry it;
    const char *text = password != NULL ? password : "none";
    int is_taken = scramotp_keys(of->number, entry->count, entry->salt, entry->salt_len, text, strlen(text), &it) == SCRAMOTP_OK
        && password != NULL;
    if (is_taken)
        *entry = it;
    explicit_bzero(&it, sizeof it);
    return is_taken;
}

/* Puts what the store has of the account into the entry, which is its decoy. It stays that if there is nothing to log in with. */
static void take_secret(login *it, const sasl_server_params_t *params, const settings *set)
{
    const sasl_utils_t *utils = params->utils;
    struct propval found[PROPERTIES + 1] = {0};
    int reads_passwords = set->wanted == properties, is_taken = 0;
    if (utils->prop_getnames(params->propctx, properties, found) < 0)
        return;
    const char *password = reads_passwords && found[PASSWORD].values != NULL ? found[PASSWORD].values[0] : NULL;
    const char **keys = password == NULL ? found[KEYS].values : NULL;
    int is_there = password != NULL || (keys != NULL && *keys != NULL);
    for (; keys != NULL && *keys != NULL && !is_taken; keys++)
        is_taken = read_keys(utils, it->of, *keys, &it->entry);
    if (reads_passwords && !is_taken)
        is_taken = take_password(it->of, password, &it->entry);
    if (is_there && !is_taken)
        utils->log(utils->conn, SASL_LOG_ERR, "scramotp: the store has no secret of %s that %s can use", it->names.name, it->of->name);
}

/* Looks up the names of the first message. Returns whether there is such an account; what else went wrong is logged. */
static int look_up(const login *it, sasl_server_params_t *params, sasl_out_params_t *out)
{
    const sasl_utils_t *utils = params->utils;
    const char *act_as = it->names.act_as;
    unsigned flags = *act_as == '\0' ? SASL_CU_AUTHID | SASL_CU_AUTHZID : SASL_CU_AUTHID;
    int result = params->canon_user(utils->conn, it->names.name, 0, flags, out);
    if (result == SASL_OK && *act_as != '\0')
        result = params->canon_user(utils->conn, act_as, 0, SASL_CU_AUTHZID, out);
    if (result != SASL_OK && result != SASL_NOUSER)
        utils->log(utils->conn, SASL_LOG_FAIL, "scramotp: %s cannot be looked up, result %d", it->names.name, result);
    return result == SASL_OK;
}

/* Makes the entry of the account, or a decoy if there is none or it cannot be looked up: no message may tell which. The name of a decoy is
 * what Cyrus makes of the client's, so that all spellings of a name have the same, unless that is a text that can't be one. */
static int find_account(login *it, sasl_server_params_t *params, const settings *set, sasl_out_params_t *out)
{
    if (params->utils->prop_request(params->propctx, set->wanted) != SASL_OK)
        return SASL_FAIL;
    out->authid = NULL;
    int is_found = look_up(it, params, out);
    const char *name = out->authid != NULL ? out->authid : "", *sent = it->names.name;
    if (scramotp_decoy(set->decoy_key, it->of->number, set->count, name, strlen(name), &it->entry) != SCRAMOTP_OK)
        scramotp_decoy(set->decoy_key, it->of->number, set->count, sent, strlen(sent), &it->entry);
    if (is_found)
        take_secret(it, params, set);
    else if (set->wanted == properties)
        take_password(it->of, NULL, &it->entry);
    for (const char **property = set->wanted; *property != NULL; property++)
        params->utils->prop_erase(params->propctx, *property);
    return SASL_OK;
}

/* ---- the two messages */

/* Notes why a message is refused: the number of scramotp.h, and the verdict, if there is one. */
static int refused(const login *it, const sasl_utils_t *utils, uint32_t number)
{
    const char *verdict = it->verdict;
    utils->seterror(utils->conn, 0, "%s: refused, number %d%s%s", it->of->name, (int)number, *verdict != '\0' ? ": " : "", verdict);
    return number == SCRAMOTP_INVALID_PROOF ? SASL_BADAUTH : SASL_BADPROT;
}

/* Answers the first message by a challenge. */
static int challenge(login *it, sasl_server_params_t *params, const char *text, size_t len, sasl_out_params_t *out)
{
    uint8_t fresh[18];
    char nonce[25];
    settings set;
    uint32_t number = len > sizeof it->first ? SCRAMOTP_NOT_CLIENT_FIRST : scramotp_read_names(text, len, &it->names);
    if (number != SCRAMOTP_OK)
        return refused(it, params->utils, number);
    int result = read_settings(params->utils, it->of, &set) ? find_account(it, params, &set, out) : SASL_FAIL;
    explicit_bzero(&set, sizeof set);
    if (result != SASL_OK)
        return result;
    if (getrandom(fresh, sizeof fresh, 0) != (ssize_t)sizeof fresh
        || params->utils->encode64((const char *)fresh, sizeof fresh, nonce, sizeof nonce, NULL) != SASL_OK)
        return SASL_FAIL;
    number = scramotp_server_first(&it->entry, text, len, nonce, strlen(nonce), it->challenge, sizeof it->challenge, &it->challenge_len);
    if (number != SCRAMOTP_OK)
        return refused(it, params->utils, number);
    memcpy(it->first, text, len);
    it->first_len = len;
    it->state = CHALLENGED;
    return SASL_CONTINUE;
}

/* Judges the final message. Whether the account may act as another is for the service to say, which Cyrus asks after this. */
static int judge(login *it, const sasl_utils_t *utils, const char *text, size_t len, size_t *verdict_len)
{
    scramotp_bytes act_as = {it->names.act_as, strlen(it->names.act_as)};
    uint32_t number = scramotp_server_final(&it->entry, &act_as, act_as.len != 0, it->first, it->first_len, it->challenge,
        it->challenge_len, text, len, it->verdict, SCRAMOTP_FINAL_ROOM, verdict_len);
    explicit_bzero(&it->entry, sizeof it->entry);
    return number == SCRAMOTP_OK ? SASL_OK : refused(it, utils, number);
}

/* One message of a login. A refusal has no answer: Cyrus frees the login, and thus what is in it, before it returns. */
static int step(void *context, sasl_server_params_t *params, const char *text, unsigned len, const char **answer, unsigned *answer_len,
    sasl_out_params_t *out)
{
    login *it = context;
    size_t verdict_len = 0;
    *answer = NULL;
    *answer_len = 0;
    if (it == NULL || it->state == OVER)
        return SASL_BADPROT;
    if (it->state == BEGUN && len == 0) {
        it->state = ASKED;
        *answer = "";
        return SASL_CONTINUE;
    }
    int is_final = it->state == CHALLENGED;
    it->state = OVER;
    text = text != NULL ? text : "";
    int result = is_final ? judge(it, params->utils, text, len, &verdict_len) : challenge(it, params, text, len, out);
    if (result == SASL_CONTINUE) {
        *answer = it->challenge;
        *answer_len = (unsigned)it->challenge_len;
    } else if (result == SASL_OK) {
        *answer = it->verdict;
        *answer_len = (unsigned)verdict_len;
        out->doneflag = 1;
        out->mech_ssf = 0; /* what follows the login is not encoded */
        out->encode = NULL;
        out->decode = NULL;
    }
    return result;
}

/* ---- what Cyrus calls */

__attribute__((visibility("default"))) sasl_server_plug_init_t sasl_server_plug_init;

static int begin(void *of, sasl_server_params_t *params, const char *challenge_before, unsigned len, void **context)
{
    (void)challenge_before;
    (void)len;
    login *it = params->utils->calloc(1, sizeof *it);
    if (it == NULL)
        return SASL_NOMEM;
    it->of = of;
    *context = it;
    return SASL_OK;
}

static void end(void *context, const sasl_utils_t *utils)
{
    if (context == NULL)
        return;
    explicit_bzero(context, sizeof(login));
    utils->free(context);
}

int sasl_server_plug_init(const sasl_utils_t *utils, int newest, int *version, sasl_server_plug_t **plugs, int *count)
{
    static sasl_server_plug_t made[MECHANISMS];
    (void)utils;
    if (newest < SASL_SERVER_PLUG_VERSION)
        return SASL_BADVERS;
    if (getrandom(own_key, sizeof own_key, 0) != (ssize_t)sizeof own_key)
        return SASL_FAIL;
    for (size_t i = 0; i < MECHANISMS; i++)
        made[i] = (sasl_server_plug_t){
            .mech_name = mechanisms[i].name,
            .security_flags = SASL_SEC_NOPLAINTEXT | SASL_SEC_NOACTIVE | SASL_SEC_NOANONYMOUS | SASL_SEC_MUTUAL_AUTH
                | SASL_SET_HASH_STRENGTH_BITS((unsigned)mechanisms[i].key_len * 8),
            .features = SASL_FEAT_ALLOWS_PROXY,
            .glob_context = &mechanisms[i],
            .mech_new = begin,
            .mech_step = step,
            .mech_dispose = end,
        };
    *version = SASL_SERVER_PLUG_VERSION;
    *plugs = made;
    *count = MECHANISMS;
    return SASL_OK;
}
