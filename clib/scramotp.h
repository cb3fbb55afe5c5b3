/* libscramotp: SCRAM-SHA-1 and SCRAM-SHA-256 at a server and at a client (RFC 5802, RFC 7677), without channel binding; HOTP and TOTP
 * codes (RFC 4226, RFC 6238). Link with -lscramotp, which needs only the C library.
 *
 * Each call is proved to do what is said here. No call keeps a pointer, or shares anything with another call, so any thread may make any
 * call at any time. Only scramotp_audit and scramotp_report allocate memory, by malloc, and they have freed all when they return. No call
 * wipes memory that had a secret. Each call is tested in threads with stacks of 128 KiB.
 *
 * You owe each call pointers to as many bytes as it says, which no other thread writes meanwhile. What a call writes to overlaps none of
 * its other arguments. A pointer is NULL only if the length after it is 0; `at` in scramotp_bytes never is. All else is judged: what a
 * client sends may be any bytes.
 *
 * Each call returns 0 if it did what it says, else one of the numbers at the end of this page. Then what it writes to is as it was, except
 * that a refusal (32 to 37) comes with a message, that a code that does not pass (43) is counted, and that an audit and a report tell where
 * a log is at fault.
 *
 * A login. Keep the entry, the client's first message and the challenge until the client's final message is there. There `get` and
 * `put` receive and send a message, without the base64 that SMTP, IMAP and others put around it, `fill` makes the entry of the account of
 * a name for the mechanism that the client has named, here SCRAM-SHA-256, and `nonce` has 24 fresh characters. Who is accepted acts as
 * `names.act_as`, or as `names.name` if that is empty.
 *
 *     first_len = get(first);
 *     if (scramotp_read_names(first, first_len, &names) != 0)
 *         return refused;
 *     if (!fill(names.name, &entry))
 *         scramotp_decoy(decoy_key, SCRAMOTP_SHA_256, 4096, names.name, strlen(names.name), &entry);
 *     if (scramotp_server_first(&entry, first, first_len, nonce, 24, challenge, sizeof challenge, &challenge_len) != 0)
 *         return refused;
 *     put(challenge, challenge_len);
 *     final_len = get(final);
 *     number = scramotp_server_final(&entry, NULL, 0, first, first_len, challenge, challenge_len, final, final_len,
 *         verdict, sizeof verdict, &verdict_len);
 *     if (number == SCRAMOTP_OK || SCRAMOTP_IS_REFUSAL(number))
 *         put(verdict, verdict_len);
 *     return number == SCRAMOTP_OK ? accepted : refused;
 *
 * Whole programs are in clib/examples of the sources: login.c, prepared.c, client.c, code.c, logged.c, verifier.c, audit.c and report.c.
 *
 * A client's login. Its struct stays the same in all calls.
 *
 *     scramotp_client client = {{"user", 4}, {"", 0}, {nonce, 24}, SCRAMOTP_SHA_256, 4096, 1000000};
 *     if (scramotp_client_first(&client, first, sizeof first, &first_len) != 0)
 *         return refused;
 *     put(first, first_len);
 *     challenge_len = get(challenge);
 *     if (scramotp_client_final(&client, password, password_len, challenge, challenge_len, final, sizeof final, &final_len,
 *             signature) != 0)
 *         return refused;
 *     put(final, final_len);
 *     verdict_len = get(verdict);
 *     return scramotp_client_check(client.mechanism, signature, verdict, verdict_len) == 0 ? accepted : refused;
 *
 * A code. A token is its secret and a struct, of which `next`, `last`, `drift` and `failures` are state. Judge one code of a token at a
 * time, and store the token before you act on a pass: else the code can pass again. The secret is bytes, not the base32 that a phone
 * scans, and the code is what was typed, whatever that is.
 *
 *     lock(account);
 *     number = scramotp_totp(secret, 20, &token, (uint64_t)time(NULL), code, strlen(code));
 *     if (!store(account, &token))
 *         number = SCRAMOTP_FAIL;
 *     unlock(account);
 */
#ifndef SCRAMOTP_H
#define SCRAMOTP_H

#include <stddef.h>
#include <stdint.h>

#ifdef __cplusplus
extern "C" {
#endif

/* 0.1.0, as 10000 times the first number, 100 times the second, and the third. */
#define SCRAMOTP_VERSION 100

/* The mechanisms are SCRAM-SHA-1, whose keys have 20 bytes, and SCRAM-SHA-256, whose keys have 32. A TOTP token can also use SHA-512. */
enum { SCRAMOTP_SHA_1 = 1, SCRAMOTP_SHA_256 = 256, SCRAMOTP_SHA_512 = 512 };

/* The most bytes of a message that is received: a longer one is refused. */
enum { SCRAMOTP_MOST_RECEIVED = 2048 };

/* The room that the longest messages need which are written: a server's challenge and its final message, and a client's messages. */
enum { SCRAMOTP_FIRST_ROOM = 618, SCRAMOTP_FINAL_ROOM = 46 };
enum { SCRAMOTP_CLIENT_FIRST_ROOM = 1796, SCRAMOTP_CLIENT_FINAL_ROOM = 1592 };

/* What a server keeps for a name and a mechanism. */
typedef struct {
    uint32_t mechanism;
    uint32_t count;         /* the iteration count, at least 1 */
    size_t salt_len;        /* 1 to 64 */
    size_t key_len;         /* 20 or 32, as the mechanism has; 0 makes it a decoy, for which no proof is right */
    uint8_t salt[64];       /* what is after the lengths is ignored */
    uint8_t stored_key[64];
    uint8_t server_key[64];
} scramotp_entry;

/* Bytes of yours. */
typedef struct {
    const void *at;
    size_t len;
} scramotp_bytes;

/* The names in a client's first message, each with NULs after it. A name has 1 to 255 bytes from space to tilde. */
typedef struct {
    char name[256];
    char act_as[256];       /* the name to act as (authzid), empty if none is asked for */
} scramotp_names;

/* Makes the entry of a password: 1 to 1024 bytes from space to tilde. The salt has 1 to 64 bytes: take 16 fresh random ones. The count
 * decides how long the call takes: take 4096 or more (RFC 7677). Keep the entry, and not the password.
 * Numbers: 90 mechanism, 65 count, 64 salt, 91 password; the first of these that applies. */
uint32_t scramotp_keys(uint32_t mechanism, uint32_t count, const void *salt, size_t salt_len, const void *password, size_t password_len,
    scramotp_entry *entry);

/* How PostgreSQL and Dovecot spell an entry with keys, for instance SCRAM-SHA-256$4096:SALT$STORED:SERVER (RFC 5803) and
 * {SCRAM-SHA-256}4096,SALT,STORED,SERVER. SALT, STORED and SERVER are in base64. PostgreSQL has no keys for SCRAM-SHA-1. */
enum { SCRAMOTP_POSTGRES = 1, SCRAMOTP_DOVECOT = 2 };

/* The room that the longest verifier needs. */
enum { SCRAMOTP_VERIFIER_ROOM = 204 };

/* Reads a verifier of either spelling and mechanism, without an LF, into an entry. The answer is 0 exactly if the text is one: the count is
 * in decimal without a leading 0, the base64 is padded, the salt has 1 to 64 bytes, the keys have as many as the mechanism's, and nothing
 * follows.
 * Numbers: 96 text. */
uint32_t scramotp_read_verifier(const void *text, size_t text_len, scramotp_entry *entry);

/* Writes an entry with keys as a verifier, without an LF or a NUL, in the spelling SCRAMOTP_POSTGRES or SCRAMOTP_DOVECOT.
 * Numbers: 90 mechanism, 97 spelling, 65, 64, 66 of the entry, also 66 if it is a decoy, 93 room; the first of these that applies. */
uint32_t scramotp_write_verifier(const scramotp_entry *entry, uint32_t spelling, void *out, size_t out_room, size_t *out_len);

/* Makes the decoy of a name that has no account, so that no message tells: a salt of 16 bytes that follows from the key, the mechanism
 * and the name. The key is 32 random bytes that stay the same and secret. Take the count and the length of the salt that your accounts
 * have. How long you take to answer may still tell.
 * Numbers: 90 mechanism, 65 count, 63 name; the first of these that applies. */
uint32_t scramotp_decoy(const uint8_t key[32], uint32_t mechanism, uint32_t count, const void *name, size_t name_len,
    scramotp_entry *entry);

/* Reads the names in a client's first message.
 * Numbers: 20 to 23, as a server refuses the message. */
uint32_t scramotp_read_names(const void *client_first, size_t client_first_len, scramotp_names *names);

/* Writes the challenge to a client's first message. The server's part of the nonce is 1 to 256 bytes from `!` to tilde, without a
 * comma: take the base64 of 18 fresh random bytes, and none twice.
 * Numbers: 90, 65, 64, 66 of the entry, 92 server_nonce, 20 to 23 of the message, 93 room; the first of these that applies. */
uint32_t scramotp_server_first(const scramotp_entry *entry, const void *client_first, size_t client_first_len, const void *server_nonce,
    size_t server_nonce_len, void *out, size_t out_room, size_t *out_len);

/* Judges a login by its three messages, the first two as they were received and sent, and writes the server's final message. `act_as`
 * are the `act_as_len` other names that the account may act as. The answer is 0 exactly if the login is valid.
 * Numbers: 90, 65, 64, 66 of the entry, 20 to 23 and 31 of the first two messages, 93 room; the first of these that applies. Else 32 to
 * 37, the refusal that is due, and the message that tells it is written. */
uint32_t scramotp_server_final(const scramotp_entry *entry, const scramotp_bytes *act_as, size_t act_as_len, const void *client_first,
    size_t client_first_len, const void *server_first, size_t server_first_len, const void *client_final, size_t client_final_len,
    void *out, size_t out_room, size_t *out_len);

/* A key of HMAC that is prepared: what the hash function has computed of it, the key padded in both ways (RFC 2104). */
typedef struct {
    uint32_t inner[8];
    uint32_t outer[8];
} scramotp_prepared_key;

/* The keys of an entry, prepared. They are as secret as the keys. */
typedef struct {
    scramotp_prepared_key stored;
    scramotp_prepared_key server;
} scramotp_prepared_keys;

/* Prepares the keys of an entry, or of a decoy, once for all its logins: each then takes 4 compressions of the hash function fewer, of
 * usually 13. If the entry changes, prepare it anew.
 * Numbers: 90, 65, 64, 66 of the entry; the first of these that applies. */
uint32_t scramotp_prepare(const scramotp_entry *entry, scramotp_prepared_keys *prepared);

/* Judges a login as scramotp_server_final does, with the keys that scramotp_prepare has made of this entry: the answer and the message are
 * the same. With other prepared keys a login may be refused that is valid, or accepted that is not. */
uint32_t scramotp_server_final_prepared(const scramotp_entry *entry, const scramotp_prepared_keys *prepared, const scramotp_bytes *act_as,
    size_t act_as_len, const void *client_first, size_t client_first_len, const void *server_first, size_t server_first_len,
    const void *client_final, size_t client_final_len, void *out, size_t out_room, size_t *out_len);

/* A client's login. */
typedef struct {
    scramotp_bytes name;    /* who logs in: 1 to 255 bytes from space to tilde */
    scramotp_bytes act_as;  /* the name to act as (authzid): also such bytes, or {"", 0} for none */
    scramotp_bytes nonce;   /* 1 to 256 bytes from `!` to tilde, without a comma: take the base64 of 18 fresh random bytes */
    uint32_t mechanism;
    uint32_t least;         /* the least iteration count that the client accepts, at least 1: take 4096 */
    uint32_t most;          /* the greatest, which decides how long a server can keep you busy: take 1000000 */
} scramotp_client;

/* Writes a client's first message. The room has to be SCRAMOTP_CLIENT_FIRST_ROOM or more.
 * Numbers: 90 mechanism, 65 least, 63 name and act_as, 92 nonce, 93 room; the first of these that applies. */
uint32_t scramotp_client_first(const scramotp_client *client, void *out, size_t out_room, size_t *out_len);

/* Answers the challenge of the server to this client's first message: writes the client's final message, with the proof of the password,
 * and the signature that the server then has to show. The room has to be SCRAMOTP_CLIENT_FINAL_ROOM or more. The count in the challenge
 * decides how long the call takes.
 * Numbers: 90, 65, 63, 92 of the client, 91 password, 93 room, 24 to 28 of the challenge; the first of these that applies. */
uint32_t scramotp_client_final(const scramotp_client *client, const void *password, size_t password_len, const void *server_first,
    size_t server_first_len, void *out, size_t out_room, size_t *out_len, uint8_t signature[32]);

/* Checks the server's final message: the answer is 0 exactly if it shows this signature. Then, and not before, you know that the server
 * has the keys of the password.
 * Numbers: 90 mechanism, 24, 25, 29, 30 of the message; the first of these that applies. */
uint32_t scramotp_client_check(uint32_t mechanism, const uint8_t signature[32], const void *server_final, size_t server_final_len);

/* A HOTP token without its secret (RFC 4226, section 7): 6 digits from counter 0 on are {0, 2, 10, 5, 0, 6}. */
typedef struct {
    uint64_t next;          /* state: the least counter that can pass, or 2^63 - 1 if none can */
    uint64_t look_ahead;    /* how many counters after it can also pass, at most 100 */
    uint64_t sync_ahead;    /* how many counters after it can be the first of two codes in a row, at most 1000 */
    uint64_t limit;         /* the number of failures that locks the token, 1 to 100 */
    uint64_t failures;      /* state: the failures since the token last passed, at most `limit`; set it to 0 to unlock the token */
    uint8_t digits;         /* of a code, 6 to 8 */
} scramotp_hotp_token;

/* A TOTP token without its secret (RFC 6238): 6 digits every 30 seconds are {0, 30, 1, 1, 2, UINT64_MAX, 0, 5, 0, SCRAMOTP_SHA_1, 6}. */
typedef struct {
    uint64_t t0;            /* when step 0 begins, in seconds since 1970 */
    uint64_t step;          /* the length of a step in seconds, 1 to 3600 */
    uint64_t back;          /* how many steps before the present one, moved by `drift`, can pass, at most 10 */
    uint64_t ahead;         /* how many steps after it can pass, at most 10 */
    uint64_t max_drift;     /* how far a step that passes may be from the present one, at most 100 steps */
    uint64_t last;          /* state: the greatest step that has passed, or UINT64_MAX if none has */
    int64_t drift;          /* state: by how many steps the token's clock is ahead, at most `max_drift` either way */
    uint64_t limit;         /* the number of failures that locks the token, 1 to 100 */
    uint64_t failures;      /* state: the failures since the token last passed, at most `limit`; set it to 0 to unlock the token */
    uint32_t hash;          /* SCRAMOTP_SHA_1, SCRAMOTP_SHA_256 or SCRAMOTP_SHA_512 */
    uint8_t digits;         /* of a code, 6 to 8 */
} scramotp_totp_token;

/* Judges a code. The secret has 10 to 64 bytes. Numbers: 40 secret, 41 digits, 42 another setting; the first of these that applies. Else
 * 43 if the code does not pass, or 44 if the token is locked; these two, like 0, leave the token's state changed as they say. */
uint32_t scramotp_hotp(const void *secret, size_t secret_len, scramotp_hotp_token *token, const void *code, size_t code_len);

/* Judges two codes in a row, to find a token whose counter has run far ahead (RFC 4226, section 7.4). Else as scramotp_hotp. Two codes of a
 * TOTP token never pass: judge an empty one instead, which counts the failure. */
uint32_t scramotp_hotp_sync(const void *secret, size_t secret_len, scramotp_hotp_token *token, const void *first, size_t first_len,
    const void *second, size_t second_len);

/* Judges a code at a moment, in seconds since 1970. Numbers: 94 hash, 40 secret, 41 digits, 95 moments, 42 another setting; the first of
 * these that applies. Else 43 and 44, as above. */
uint32_t scramotp_totp(const void *secret, size_t secret_len, scramotp_totp_token *token, uint64_t moment, const void *code,
    size_t code_len);

/* A log that others can audit, by scramotp_audit or by the program, begins with SCRAMOTP_LOG_BEGIN. After that come the lines of its
 * sessions: SCRAMOTP_S_MECHS as a client comes, then what both say, in turn, and SCRAMOTP_E. Write a line before you say it.
 *
 *     SCRAMLOG 2
 *     1 S MECHS SCRAM-SHA-256 SCRAM-SHA-1
 *     1 C AUTH SCRAM-SHA-1 :n,,n=user,r=fyko+d2lbbFgONRv9qkxdawL
 *     1 S CONT :r=fyko+d2lbbFgONRv9qkxdawL3rfcNHYJY1ZVvWVs7j,s=QSXCR+Q6sek8bf92,i=4096
 *     1 C RESP :c=biws,r=fyko+d2lbbFgONRv9qkxdawL3rfcNHYJY1ZVvWVs7j,p=v0X8v3Bz2T0CJGbJQyF0X+HI4Ts=
 *     1 S OK :v=rmF9pqV8S7suAoZWja4dJRkFsKQ=
 *     1 C CODE 755224
 *     1 S PASS 1764460800 0
 *     1 C GONE
 *     1 E
 *
 * A login that is refused has S NO in place of S OK, with the message that tells it, and then E. A client may send any number of codes. */
#define SCRAMOTP_LOG_BEGIN "SCRAMLOG 2\n"

/* The room that the longest line needs. */
enum { SCRAMOTP_LINE_ROOM = 6223 };

/* The kinds of lines, by their words: S is said by the server, and C by the client. */
enum {
    SCRAMOTP_S_MECHS = 1,   /* the offer of both mechanisms, which begins a session */
    SCRAMOTP_S_CONT = 2,    /* text: the challenge, or empty to ask for the first message after SCRAMOTP_C_AUTH */
    SCRAMOTP_S_OK = 3,      /* text: the message that accepts the login */
    SCRAMOTP_S_NO = 4,      /* text: the message that refuses it, or empty if there is none; then comes SCRAMOTP_E */
    SCRAMOTP_S_PASS = 5,    /* moment, counter: a code passes, or the second of two in a row */
    SCRAMOTP_S_FAIL = 6,    /* moment: it does not */
    SCRAMOTP_S_LOCKED = 7,  /* moment: the token is locked */
    SCRAMOTP_S_NOCODE = 8,  /* moment: the account has no token */
    SCRAMOTP_S_HALT = 9,    /* in place of a reply to a code: the server can't store the token, and ends the log */
    SCRAMOTP_S_BUSY = 10,   /* 64 sessions are open, so this one gets no offer; then comes SCRAMOTP_E */
    SCRAMOTP_C_AUTH = 11,   /* text: the mechanism that the client names, of 1 to 20 bytes from A to Z, 0 to 9, hyphen and underscore */
    SCRAMOTP_C_AUTH_WITH = 12, /* text: the same; more: the first message, which came with it */
    SCRAMOTP_C_RESP = 13,   /* text: a message */
    SCRAMOTP_C_ABORT = 14,  /* the client gives up; then comes SCRAMOTP_S_NO */
    SCRAMOTP_C_CODE = 15,   /* text: a code, of 1 to 16 bytes from `!` to tilde */
    SCRAMOTP_C_SYNC = 16,   /* text, more: two codes in a row */
    SCRAMOTP_C_BAD = 17,    /* the client has said what is none of these or is not due; then comes SCRAMOTP_S_NO */
    SCRAMOTP_C_GONE = 18,   /* the client goes away, or the server ends the session; then comes SCRAMOTP_E */
    SCRAMOTP_E = 19         /* the end of a session */
};

/* A line of a log, besides its texts. What is not named after its kind is ignored. */
typedef struct {
    uint64_t session;       /* the number of its session: 1 in the first session of the log, and so on */
    uint64_t moment;        /* by which a code was judged, in seconds since 1970 */
    uint64_t counter;       /* that has passed: the new `last` of a TOTP token, or one less than the new `next` of a HOTP token */
    uint32_t kind;
} scramotp_line;

/* Writes a line with its LF. A message may be any bytes. Whether the line is due where you put it is for the audit to say.
 * Numbers: 98 kind; 70 session, a mechanism, a code, moment, counter; 71 a message of which the line would have more than 6202 bytes after
 * its number; 93 room; the first of these that applies. */
uint32_t scramotp_log_line(const scramotp_line *line, const void *text, size_t text_len, const void *more, size_t more_len, void *out,
    size_t out_room, size_t *out_len);

/* What an audit finds. */
typedef struct {
    uint64_t line;          /* the line at fault, from 1, or 0 if none is */
    uint64_t sessions;      /* of a clean log, how many sessions were offered mechanisms */
    uint64_t accepted;      /* of a clean log, how many logins were accepted */
    uint64_t codes_passed;  /* of a clean log, how many codes have passed, or pairs of codes in a row */
} scramotp_audited;

/* Judges a log by the text of the account book that it began with. The answer is 0 exactly if the log is clean and has at most 1000000
 * lines; then the struct has its counts. logged.c writes a log and its book. The book of the log above is this, in TOML, with bytes in
 * hexadecimal:
 *
 *     format = 1
 *     decoy_key = "000102030405060708090a0b0c0d0e0f101112131415161718191a1b1c1d1e1f"
 *     decoy_count = 4096
 *     [accounts."user"]
 *     act_as = []
 *     [accounts."user".sha1]
 *     count = 4096
 *     salt = "4125c247e43ab1e93c6dff76"
 *     stored = "e9d94660c39d65c38fbad91c358f14da0eef2bd6"
 *     server = "0fe09258b3ac852ba502cc62ba903eaacdbf7d31"
 *     [accounts."user".token]
 *     kind = "hotp"
 *     secret = "3132333435363738393031323334353637383930"
 *     digits = 6
 *     next = 0
 *     look_ahead = 2
 *     sync_ahead = 10
 *     limit = 5
 *     failures = 0
 *
 * `decoy_key` and `decoy_count` are what you give scramotp_decoy, and `act_as` the names that you give scramotp_server_final, at most 16.
 * An account has the keys of each mechanism, in `sha1` and `sha256`, and a token, or some of these. A token has the fields of its struct as
 * it then was: of TOTP `hash` is "sha1", "sha256" or "sha512", and `last` is left out if no step has passed. In a name a backslash stands
 * before each double quote and each backslash.
 *
 * Numbers: 60 to 67 of the book, 87 for more lines, and 99, which only a lack of memory should bring; with these the struct is as it was.
 * Else 80 to 86, why the first line at fault is at fault, and the struct has its number and 0 as each count. */
uint32_t scramotp_audit(const void *book, size_t book_len, const void *log, size_t log_len, scramotp_audited *audited);

/* Says who was let in by a log, who was refused, and why: judges it as scramotp_audit does, and writes the rows of the lines before the
 * first at fault, each with its LF. Rows are as secret as the log. Those of the log above are
 *
 *     6 1 accepted user - SCRAM-SHA-1 -
 *     8 1 passed user - SCRAM-SHA-1 1764460800 0
 *
 * with the line, the session, what happened, the name, the name to act as, the mechanism, and the reason, or the moment and counter of a
 * code; `-` stands for none. docs/FORMATS.md has all that can happen, and each reason.
 *
 * Numbers: as scramotp_audit, with the struct as there, and the rows are written also with 80 to 87; but 93 if the room is too short. Then
 * `out_len` has the length of the rows, and nothing else is written, so you can call again. With 60 to 67 and 99 all is as it was. */
uint32_t scramotp_report(const void *book, size_t book_len, const void *log, size_t log_len, void *out, size_t out_room, size_t *out_len,
    scramotp_audited *audited);

/* The numbers. */
enum {
    SCRAMOTP_OK = 0,

    SCRAMOTP_NOT_CLIENT_FIRST = 20, /* the text is not a client's first message, or has more than 2048 bytes */
    SCRAMOTP_MANDATORY = 21,        /* it asks for a mandatory extension */
    SCRAMOTP_BINDING_ASKED = 22,    /* it asks for channel binding */
    SCRAMOTP_OUTSIDE_PROFILE = 23,  /* a name in it is not 1 to 255 bytes from space to tilde */
    SCRAMOTP_NOT_SERVER_MESSAGE = 24, /* the text is not the message that the server has to send */
    SCRAMOTP_SERVER_MANDATORY = 25, /* it asks for a mandatory extension */
    SCRAMOTP_NONCE_NOT_MINE = 26,   /* the nonce does not begin with the client's */
    SCRAMOTP_NONCE_NOT_LONGER = 27, /* the server has added nothing to the client's nonce */
    SCRAMOTP_COUNT_OUTSIDE = 28,    /* the iteration count is not from `least` to `most` */
    SCRAMOTP_SERVER_REFUSED = 29,   /* the server refuses the login: its message is `e=` and why */
    SCRAMOTP_WRONG_SIGNATURE = 30,  /* the message shows another signature: the server does not have the keys of the password */
    SCRAMOTP_NOT_CHALLENGE = 31,    /* the second text is not a challenge to the first message with the entry's salt and count */

    SCRAMOTP_INVALID_ENCODING = 32, /* the text is not a client's final message: e=invalid-encoding */
    SCRAMOTP_EXTENSIONS = 33,       /* it asks for a mandatory extension: e=extensions-not-supported */
    SCRAMOTP_OTHER_NONCE = 34,      /* its nonce is not the challenge's: e=other-error */
    SCRAMOTP_CHANNEL = 35,          /* its channel field is not the first message's header: e=channel-bindings-dont-match */
    SCRAMOTP_INVALID_PROOF = 36,    /* its proof is not made with the entry's keys: e=invalid-proof */
    SCRAMOTP_NOT_AUTHORISED = 37,   /* the name to act as is neither the name nor in act_as: e=other-error */

    SCRAMOTP_BAD_SECRET = 40,       /* the secret does not have 10 to 64 bytes */
    SCRAMOTP_BAD_DIGITS = 41,       /* a code does not have 6 to 8 digits */
    SCRAMOTP_BAD_SETTING = 42,      /* a field of the token is outside its range */
    SCRAMOTP_FAIL = 43,             /* the code is not due, or has passed; the failures are one more */
    SCRAMOTP_LOCKED = 44,           /* the failures have reached `limit`; nothing is changed */

    SCRAMOTP_BAD_TOML = 60,         /* the book is not a TOML document */
    SCRAMOTP_BAD_FORMAT = 61,       /* its format is not 1 */
    SCRAMOTP_BAD_KEY = 62,          /* a key in it is missing or unknown, or its value has another type */
    SCRAMOTP_BAD_NAME = 63,         /* the name is not 1 to 255 bytes from space to tilde */
    SCRAMOTP_BAD_SALT = 64,         /* the salt does not have 1 to 64 bytes */
    SCRAMOTP_BAD_COUNT = 65,        /* the count, or the least that a client accepts, is 0 */
    SCRAMOTP_BAD_KEY_LEN = 66,      /* key_len is neither 0 nor the length of the mechanism's keys, or keys are needed and it is 0 */
    SCRAMOTP_BAD_TOKEN = 67,        /* a token in the book is not in its ranges */
    SCRAMOTP_BAD_LINE = 70,         /* a session, a mechanism, a code, a moment or a counter is not in its form or range */
    SCRAMOTP_LONG_LINE = 71,        /* a message is too long for a line of a log */
    SCRAMOTP_CUT = 80,              /* the log ends where a line is due, or in a line without its LF */
    SCRAMOTP_NOT_A_LINE = 81,       /* the line is none of a log of its version */
    SCRAMOTP_ORDER = 82,            /* no such line is due there */
    SCRAMOTP_MECHS = 83,            /* it names other mechanisms */
    SCRAMOTP_CHALLENGE = 84,        /* a challenge is due, and it is another or none */
    SCRAMOTP_OUTCOME = 85,          /* another outcome of the login is due */
    SCRAMOTP_REPLY = 86,            /* another reply to the code is due */
    SCRAMOTP_TOO_MANY_LINES = 87,   /* the log has more than 1000000 lines */
    SCRAMOTP_BAD_MECHANISM = 90,    /* there is no mechanism of this number */
    SCRAMOTP_BAD_PASSWORD = 91,     /* the password is not 1 to 1024 bytes from space to tilde */
    SCRAMOTP_BAD_NONCE = 92,        /* a part of the nonce is not 1 to 256 bytes from `!` to tilde without a comma */
    SCRAMOTP_NO_ROOM = 93,          /* what is to be written, or of a client's messages the longest, is longer than out_room */
    SCRAMOTP_BAD_HASH = 94,         /* there is no hash function of this number */
    SCRAMOTP_BAD_MOMENT = 95,       /* t0 or the moment is after the year 9999 */
    SCRAMOTP_BAD_VERIFIER = 96,     /* the text is no verifier */
    SCRAMOTP_BAD_SPELLING = 97,     /* there is no spelling of this number */
    SCRAMOTP_BAD_KIND = 98,         /* there is no kind of line of this number */
    SCRAMOTP_NO_MEMORY = 99         /* there was no memory for the audit */
};

/* Whether a number is a refusal, which comes with a message. */
#define SCRAMOTP_IS_REFUSAL(number) ((number) >= SCRAMOTP_INVALID_ENCODING && (number) <= SCRAMOTP_NOT_AUTHORISED)

#ifdef __cplusplus
}
#endif
#endif
