/* Makes each call of the library for C with random and changed bytes, in buffers of exactly their length, and NULL where that is 0. Prints
 * the numbers that were returned.
 *
 * Usage: c_library_fuzz SEED COUNT */
#include "scramotp.h"

#include <stdbool.h>
#include <stdio.h>
#include <stdlib.h>
#include <string.h>

static const char first_text[] = "n,,n=user,r=rOprNGfwEbeRWgbNEkqO";
static const char asks_text[] = "n,a=root,n=user,r=rOprNGfwEbeRWgbNEkqO";
static const char nonce_text[] = "%hvYDpWUa2RaTCAfuxFIlj)hNlF$k0";
static const char challenge_text[] = "r=rOprNGfwEbeRWgbNEkqO%hvYDpWUa2RaTCAfuxFIlj)hNlF$k0,s=W22ZaJ0SNY7soEsUEjb6gQ==,i=4096";
static const char final_text[] =
    "c=biws,r=rOprNGfwEbeRWgbNEkqO%hvYDpWUa2RaTCAfuxFIlj)hNlF$k0,p=dHzbZapWIk4jUhN+Ute9ytag9zjfMHgsqmmiz7AndVQ=";
static const uint8_t salt_bytes[16] = {91, 109, 153, 104, 157, 18, 53, 142, 236, 160, 75, 20, 18, 54, 250, 129};
static const char verdict_text[] = "v=6rriTRBi23WpRR/wtup+mMhUZUn/dB5nLTJRsjl95G4=";
static const char book_text[] =
    "format = 1\ndecoy_key = \"000102030405060708090a0b0c0d0e0f101112131415161718191a1b1c1d1e1f\"\ndecoy_count = 4096\n";
static const char log_text[] = "SCRAMLOG 1\nS MECHS SCRAM-SHA-256 SCRAM-SHA-1\nC ABORT\nS NO :\nE\n";
static const char accounts_text[] =
    "format = 1\ndecoy_key = \"000102030405060708090a0b0c0d0e0f101112131415161718191a1b1c1d1e1f\"\ndecoy_count = 4096\n"
    "[accounts.user]\nact_as = [\"root\"]\n[accounts.user.sha1]\ncount = 4096\nsalt = \"4125c247e43ab1e93c6dff76\"\n"
    "stored = \"e9d94660c39d65c38fbad91c358f14da0eef2bd6\"\nserver = \"0fe09258b3ac852ba502cc62ba903eaacdbf7d31\"\n"
    "[accounts.user.token]\nkind = \"hotp\"\nsecret = \"3132333435363738393031323334353637383930\"\ndigits = 6\nnext = 0\n"
    "look_ahead = 3\nlimit = 3\nfailures = 0\n";
static const char session_text[] =
    "SCRAMLOG 2\n1 S MECHS SCRAM-SHA-256 SCRAM-SHA-1\n2 S MECHS SCRAM-SHA-256 SCRAM-SHA-1\n"
    "1 C AUTH SCRAM-SHA-1 :n,,n=user,r=fyko+d2lbbFgONRv9qkxdawL\n"
    "1 S CONT :r=fyko+d2lbbFgONRv9qkxdawL3rfcNHYJY1ZVvWVs7j,s=QSXCR+Q6sek8bf92,i=4096\n2 C GONE\n2 E\n"
    "1 C RESP :c=biws,r=fyko+d2lbbFgONRv9qkxdawL3rfcNHYJY1ZVvWVs7j,p=v0X8v3Bz2T0CJGbJQyF0X+HI4Ts=\n"
    "1 S OK :v=rmF9pqV8S7suAoZWja4dJRkFsKQ=\n1 C CODE 755224\n1 S PASS 3 0\n1 C SYNC 287082 359152\n1 S PASS 3 2\n1 C GONE\n1 E\n";
static const char postgres_text[] =
    "SCRAM-SHA-256$4096:W22ZaJ0SNY7soEsUEjb6gQ==$"
    "WG5d8oPm3OtcPnkdi4Uo7BkeZkBFzpcXkuLmtbsT4qY=:wfPLwcE6nTWhTAmQ7tl2KeoiWGPlZqQxSrmfPwDl2dU=";
static const char dovecot_text[] = "{SCRAM-SHA-1}4096,QSXCR+Q6sek8bf92,6dlGYMOdZcOPutkcNY8U2g7vK9Y=,D+CSWLOshSulAsxiupA+qs2/fTE=";
static const char secret_text[] = "12345678901234567890";

enum { NUMBERS = 100, LONGEST = 2200 };
static uint64_t state;
static unsigned seen[NUMBERS];

/* A random number below `most`, by xorshift. */
static size_t below(size_t most)
{
    state ^= state << 13;
    state ^= state >> 7;
    state ^= state << 17;
    return (size_t)(state >> 11) % most;
}

/* Bytes in a buffer of exactly their length. */
typedef struct {
    uint8_t *at;
    size_t len;
} buffer;

static buffer exactly(const void *from, size_t len)
{
    buffer made = {len == 0 && below(2) ? NULL : malloc(len), len};
    if (len > 0)
        memcpy(made.at, from, len);
    return made;
}

/* Random bytes, half of the time printable ones. */
static buffer random_bytes(void)
{
    uint8_t bytes[LONGEST];
    size_t len = below(LONGEST), first = below(2) ? 0 : ' ', some = first ? 95 : 256;
    for (size_t i = 0; i < len; i++)
        bytes[i] = (uint8_t)(first + below(some));
    return exactly(bytes, len);
}

/* A text with up to two bytes changed, left out or added, or cut there; or now and then only random bytes. */
static buffer changed(const char *text)
{
    uint8_t bytes[LONGEST];
    size_t len = strlen(text);
    memcpy(bytes, text, len);
    if (below(20) == 0)
        return random_bytes();
    for (size_t changes = below(3); changes > 0 && len > 0; changes--) {
        size_t at = below(len), kind = below(4);
        if (kind == 0)
            bytes[at] = (uint8_t)below(256);
        else if (kind == 1)
            memmove(bytes + at, bytes + at + 1, --len - at);
        else if (kind == 2)
            memmove(bytes + at + 1, bytes + at, len++ - at);
        else
            len = at;
    }
    return exactly(bytes, len);
}

static uint32_t note(uint32_t number)
{
    if (number >= NUMBERS)
        abort();
    seen[number]++;
    return number;
}

/* An entry, and now and then one that is none. */
static scramotp_entry entry_of(void)
{
    scramotp_entry entry;
    buffer salt = below(9) ? exactly(salt_bytes, sizeof salt_bytes) : changed(final_text), password = changed("pencil");
    uint32_t mechanism = below(9) ? SCRAMOTP_SHA_256 : (uint32_t)below(3);
    if (note(scramotp_keys(mechanism, (uint32_t)below(9), salt.at, salt.len, password.at, password.len, &entry)) != 0 || below(3))
        scramotp_keys(SCRAMOTP_SHA_256, 1, salt_bytes, sizeof salt_bytes, "pencil", 6, &entry);
    entry.count = below(9) ? 4096 : (uint32_t)below(2);
    size_t *lengths[] = {&entry.salt_len, &entry.key_len};
    if (below(5) == 0)
        *lengths[below(2)] = below(2) ? below(70) : SIZE_MAX - below(70);
    free(salt.at);
    free(password.at);
    return entry;
}

static void log_in(void)
{
    scramotp_entry entry = entry_of();
    scramotp_names names;
    buffer first = changed(below(3) ? first_text : asks_text), nonce = changed(nonce_text), challenge = changed(challenge_text);
    buffer final = changed(final_text), name = changed("root"), out = {NULL, below(3) ? 700 : below(120)};
    uint8_t key[32] = {1};
    size_t len = 0;
    out.at = malloc(out.len);
    if (note(scramotp_read_names(first.at, first.len, &names)) == 0 && (strlen(names.name) > 255 || strlen(names.act_as) > 255))
        abort();
    if (note(scramotp_server_first(&entry, first.at, first.len, nonce.at, nonce.len, out.at, out.len, &len)) == 0 && len > out.len)
        abort();
    scramotp_bytes others[] = {{"admin", 5}, {name.len ? name.at : (const uint8_t *)"", name.len}};
    size_t others_len = below(3);
    uint32_t number = note(scramotp_server_final(&entry, others_len > 0 ? others : NULL, others_len, first.at, first.len, challenge.at,
        challenge.len, final.at, final.len, out.at, out.len, &len));
    bool is_told = number == SCRAMOTP_OK || SCRAMOTP_IS_REFUSAL(number);
    if (is_told && len > out.len)
        abort();
    scramotp_prepared_keys prepared;
    buffer again = {malloc(out.len), out.len};
    if (scramotp_prepare(&entry, &prepared) == SCRAMOTP_OK
        && (scramotp_server_final_prepared(&entry, &prepared, others_len > 0 ? others : NULL, others_len, first.at, first.len, challenge.at,
                challenge.len, final.at, final.len, again.at, again.len, &again.len) != number
            || (is_told && (again.len != len || memcmp(again.at, out.at, len) != 0))))
        abort();
    note(scramotp_decoy(key, below(2) ? SCRAMOTP_SHA_1 : (uint32_t)below(600), (uint32_t)below(5), name.at, name.len, &entry));
    buffer all[] = {first, nonce, challenge, final, name, out, again};
    for (size_t i = 0; i < sizeof all / sizeof *all; i++)
        free(all[i].at);
}

/* Bytes as the library takes them in a struct, where the pointer is never NULL. */
static scramotp_bytes bytes_of(buffer it)
{
    return (scramotp_bytes){it.at ? it.at : (const uint8_t *)"", it.len};
}

static void log_in_as_client(void)
{
    buffer name = changed("user"), act_as = changed("root"), nonce = changed("rOprNGfwEbeRWgbNEkqO"), password = changed("pencil");
    buffer challenge = changed(challenge_text), verdict = changed(verdict_text), out = {NULL, 1500 + below(500)};
    scramotp_client client = {bytes_of(name), bytes_of(act_as), bytes_of(nonce), below(9) ? SCRAMOTP_SHA_256 : (uint32_t)below(3),
        below(9) ? 1 : (uint32_t)below(2), below(9) ? 5000 : 4095};
    uint8_t *signature = malloc(32);
    size_t len = 0;
    out.at = malloc(out.len);
    memset(signature, 0, 32);
    if (note(scramotp_client_first(&client, out.at, out.len, &len)) == 0 && len > out.len)
        abort();
    /* Most of them have nothing wrong, and would take long. */
    if (below(9) == 0 && note(scramotp_client_final(&client, password.at, password.len, challenge.at, challenge.len, out.at, out.len, &len,
        signature)) == 0 && len > out.len)
        abort();
    note(scramotp_client_check(client.mechanism, signature, verdict.at, verdict.len));
    buffer all[] = {name, act_as, nonce, password, challenge, verdict, out};
    for (size_t i = 0; i < sizeof all / sizeof *all; i++)
        free(all[i].at);
    free(signature);
}

static void spell(void)
{
    scramotp_entry entry = entry_of();
    buffer text = changed(below(2) ? postgres_text : dovecot_text), out = {NULL, below(3) ? SCRAMOTP_VERIFIER_ROOM : below(150)};
    size_t len = 0;
    out.at = malloc(out.len);
    note(scramotp_read_verifier(text.at, text.len, &entry));
    if (note(scramotp_write_verifier(&entry, (uint32_t)below(4), out.at, out.len, &len)) == 0 && len > out.len)
        abort();
    free(text.at);
    free(out.at);
}

static void log_a_line(void)
{
    scramotp_line line = {below(9) ? below(100) : state, below(9) ? below(100) : state, below(9) ? below(100) : state, (uint32_t)below(22)};
    buffer text = changed(below(2) ? "SCRAM-SHA-1" : "755224"), more = changed(first_text);
    buffer out = {NULL, below(3) ? SCRAMOTP_LINE_ROOM : below(100)};
    size_t len = 0;
    out.at = malloc(out.len);
    if (note(scramotp_log_line(&line, text.at, text.len, more.at, more.len, out.at, out.len, &len)) == 0
        && (len > out.len || out.at[len - 1] != '\n'))
        abort();
    free(text.at);
    free(more.at);
    free(out.at);
}

static void audit(void)
{
    buffer book = changed(below(2) ? book_text : accounts_text), log = changed(below(2) ? log_text : session_text);
    scramotp_audited audited;
    note(scramotp_audit(book.at, book.len, log.at, log.len, &audited));
    buffer rows = {NULL, below(200)};
    size_t len = 0;
    rows.at = malloc(rows.len);
    note(scramotp_report(book.at, book.len, log.at, log.len, rows.at, rows.len, &len, &audited));
    free(rows.at);
    free(book.at);
    free(log.at);
}

static void judge_codes(void)
{
    buffer secret = changed(secret_text), code = changed("755224"), next = changed("287082");
    scramotp_hotp_token hotp = {below(2), below(3), below(20), below(4), below(3), (uint8_t)(below(9) ? 6 : below(256))};
    note(scramotp_hotp(secret.at, secret.len, &hotp, code.at, code.len));
    note(scramotp_hotp_sync(secret.at, secret.len, &hotp, code.at, code.len, next.at, next.len));
    scramotp_totp_token totp = {below(2), below(40), below(12), below(12), below(5), below(2) ? UINT64_MAX : below(5),
        (int64_t)below(3) - 1, below(4), below(3), below(9) ? SCRAMOTP_SHA_1 : (uint32_t)below(600),
        (uint8_t)(below(9) ? 6 : below(256))};
    note(scramotp_totp(secret.at, secret.len, &totp, below(9) ? below(100) : state, code.at, code.len));
    free(secret.at);
    free(code.at);
    free(next.at);
}

int main(int count, char **words)
{
    if (count != 3)
        return 2;
    state = strtoull(words[1], NULL, 10) * 2654435761u + 88172645463325252u;
    for (long i = strtol(words[2], NULL, 10); i > 0; i--) {
        log_in();
        log_in_as_client();
        spell();
        log_a_line();
        audit();
        judge_codes();
    }
    for (int i = 0; i < NUMBERS; i++)
        if (seen[i])
            printf("%d\n", i);
    return 0;
}
