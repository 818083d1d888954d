/* The generated conference of `perc make ROUNDS`, done by OpenSSL, for bench/make.
 *
 * usage: make ROUNDS TIMES. It does the whole conference TIMES times, and writes nothing. Where TIMES is 0 it does it once, and writes the
 * summary that `perc make` writes, with the sum of the report's octets, and then which OpenSSL it is and what it knows of the processor.
 *
 * Three members and a distributor. Each of them derives a session key once (RFC 3711 section 4.3), expands it once and keeps it. A member
 * seals end to end and hop by hop (RFC 8723), and wraps its key for each full field (RFC 5649, RFC 8870). The distributor opens hop by hop
 * and seals for each of the two others. These open both, and unwrap each full field. Packets and windows stand on the stack or in place:
 * memory is taken for keys alone.
 *
 * GCM is called through EVP, or where MODES is defined by the calls below EVP, which cost less for each packet and have AES without
 * vectors.
 */
#define OPENSSL_SUPPRESS_DEPRECATED
#include <openssl/aes.h>
#include <openssl/crypto.h>
#include <openssl/evp.h>
#include <openssl/modes.h>
#include <stdarg.h>
#include <stdint.h>
#include <stdio.h>
#include <stdlib.h>
#include <string.h>

enum { MEMBERS = 3, KEY = 16, SALT = 12, TAG = 16, HEAD = 12, PLAIN = 25, WRAPPED = 40, FIELD = 47, ROOM = 1500, FIRST = 65400 };

typedef unsigned char octet;

/* A key of GCM, expanded. */
#ifdef MODES
struct expansion {
    GCM128_CONTEXT *gcm;
    AES_KEY *aes;
};
#else
struct expansion {
    EVP_CIPHER_CTX *gcm;
};
#endif

/* The key of a session, expanded, and its salt. */
struct session {
    struct expansion key;
    octet salt[SALT];
};

/* The indices of a stream: the highest, and a bit for each of the 64 up to it. None at all where `marks` is 0. */
struct window {
    uint64_t highest, marks;
};

/* One end of the hop between a member and the distributor. */
struct hop {
    struct session up, down, up_control, down_control;
};

/* The newest key that a member has of another. */
struct known {
    int held;
    octet key[KEY];
    struct session session;
    struct window window;
};

struct member {
    struct hop hop, media;                           /* its own end, and the distributor's */
    EVP_CIPHER_CTX *wrap, *unwrap;
    octet key[KEY];
    struct session inner;
    uint64_t index, sent;                            /* the next packet's, and how many went out under the key */
    unsigned epoch;
    struct window accepted[MEMBERS], taken;          /* hop by hop, by sender: at the member, and at the distributor */
    struct window forwarded[MEMBERS];                /* what the distributor sealed for it, by sender */
    struct known known[MEMBERS];
};

struct datagram {
    octet octets[ROOM];
    size_t length;
};

static const char *const NAMES[MEMBERS] = { "Ann", "Bob", "Cat" };
static const octet EKT_SALT[SALT] = { 2, 2, 2, 2, 2, 2, 2, 2, 2, 2, 2, 2 };
static EVP_CIPHER *ecb, *gcm, *wrapping;

/* Whether the report is summed up, and what came of it. */
static int telling;
static uint32_t sum;
static unsigned lines, datagrams, accepted, refused;

static void must(int holds) {
    if (!holds) {
        fputs("make: OpenSSL failed, or a packet that has to be accepted was not\n", stderr);
        exit(1);
    }
}

/* ---- the report */

static void tell(const char *format, ...) {
    char text[256];
    va_list words;
    if (!telling) return;
    va_start(words, format);
    int length = vsnprintf(text, sizeof text, format, words);
    va_end(words);
    must(length >= 0 && (size_t)length < sizeof text);
    for (int k = 0; k < length; k++) sum += (octet)text[k];
}

static void tell_octets(const octet *octets, size_t length) {
    if (!telling) return;
    for (size_t k = 0; k < length; k++) tell("%02x", octets[k]);
}

static void tell_wire(const char *way, int to, const struct datagram *it) {
    datagrams++;
    if (!telling) return;
    tell("wire %u %s %s ", datagrams, way, NAMES[to]);
    tell_octets(it->octets, it->length);
    tell("\n");
}

/* ---- numbers, in network order */

static void put(octet *to, size_t length, uint64_t number) {
    while (length > 0) {
        to[--length] = (octet)number;
        number >>= 8;
    }
}

static uint64_t get(const octet *from, size_t length) {
    uint64_t number = 0;
    for (size_t k = 0; k < length; k++) number = number << 8 | from[k];
    return number;
}

/* ---- windows */

/* The index of a sequence number beside the highest (RFC 3711 appendix A). */
static uint64_t nearest(const struct window *w, unsigned seq) {
    if (w->marks == 0) return seq;
    uint64_t roc = w->highest >> 16;
    unsigned top = w->highest & 0xffff;
    if (top < 32768) {
        if (seq > top + 32768 && roc > 0) roc--;
    } else if (top - 32768 > seq) {
        roc++;
    }
    return roc << 16 | seq;
}

static int is_fresh(const struct window *w, uint64_t index) {
    if (w->marks == 0 || index > w->highest) return 1;
    uint64_t behind = w->highest - index;
    return behind < 64 && (w->marks >> behind & 1) == 0;
}

static void mark(struct window *w, uint64_t index) {
    if (w->marks == 0 || index > w->highest) {
        uint64_t step = index - w->highest;
        w->marks = (w->marks != 0 && step < 64 ? w->marks << step : 0) | 1;
        w->highest = index;
    } else {
        w->marks |= (uint64_t)1 << (w->highest - index);
    }
}

/* ---- keys */

static EVP_CIPHER_CTX *expanded(const EVP_CIPHER *cipher, const octet *key, int sealing) {
    EVP_CIPHER_CTX *context = EVP_CIPHER_CTX_new();
    must(context != NULL);
    if (cipher == wrapping) EVP_CIPHER_CTX_set_flags(context, EVP_CIPHER_CTX_FLAG_WRAP_ALLOW);
    must(EVP_CipherInit_ex(context, cipher, NULL, key, NULL, sealing));
    return context;
}

#ifdef MODES
static struct expansion gcm_expanded(const octet *key, int sealing) {
    struct expansion it;
    (void)sealing;
    it.aes = malloc(sizeof *it.aes);
    must(it.aes != NULL && AES_set_encrypt_key(key, 8 * KEY, it.aes) == 0);
    it.gcm = CRYPTO_gcm128_new(it.aes, (block128_f)AES_encrypt);
    must(it.gcm != NULL);
    return it;
}

static void drop(struct session *it) {
    CRYPTO_gcm128_release(it->key.gcm);
    free(it->key.aes);
}
#else
static struct expansion gcm_expanded(const octet *key, int sealing) {
    struct expansion it = { expanded(gcm, key, sealing) };
    return it;
}

static void drop(struct session *it) {
    EVP_CIPHER_CTX_free(it->key.gcm);
}
#endif

/* The block of a label, of which a session key or salt is the first octets. */
static void derive(EVP_CIPHER_CTX *master, const octet *salt, octet label, octet *to) {
    octet counter[16] = { 0 };
    int length;
    memcpy(counter, salt, SALT);
    counter[7] ^= label;
    must(EVP_EncryptUpdate(master, to, &length, counter, 16) && length == 16);
}

static struct session session_of(EVP_CIPHER_CTX *master, const octet *salt, octet label, int sealing) {
    struct session it;
    octet block[16];
    derive(master, salt, label, block);
    it.key = gcm_expanded(block, sealing);
    derive(master, salt, label + 2, block);
    memcpy(it.salt, block, SALT);
    return it;
}

/* The sessions of a pair: SRTP, and SRTCP unless there is none. */
static void derive_pair(const octet *key, const octet *salt, int sealing, struct session *media, struct session *control) {
    EVP_CIPHER_CTX *master = expanded(ecb, key, 1);
    *media = session_of(master, salt, 0, sealing);
    if (control != NULL) *control = session_of(master, salt, 3, sealing);
    EVP_CIPHER_CTX_free(master);
}

static void drop_hop(struct hop *it) {
    drop(&it->up);
    drop(&it->down);
    drop(&it->up_control);
    drop(&it->down_control);
}

/* ---- packets */

/* The IV of a packet (RFC 7714 section 8.1). */
static void write_iv(const struct session *it, const octet *head, uint64_t index, octet *iv) {
    memset(iv, 0, 2);
    memcpy(iv + 2, head + 8, 4);
    put(iv + 6, 6, index);
    for (int k = 0; k < SALT; k++) iv[k] ^= it->salt[k];
}

/* Seals a body where it stands, with the tag behind it. */
static void seal(struct session *it, uint64_t index, const octet *head, octet *body, size_t length) {
    octet iv[SALT];
    write_iv(it, head, index, iv);
#ifdef MODES
    CRYPTO_gcm128_setiv(it->key.gcm, iv, SALT);
    must(CRYPTO_gcm128_aad(it->key.gcm, head, HEAD) == 0);
    must(CRYPTO_gcm128_encrypt(it->key.gcm, body, body, length) == 0);
    CRYPTO_gcm128_tag(it->key.gcm, body + length, TAG);
#else
    int done;
    must(EVP_EncryptInit_ex(it->key.gcm, NULL, NULL, NULL, iv));
    must(EVP_EncryptUpdate(it->key.gcm, NULL, &done, head, HEAD));
    if (length > 0) must(EVP_EncryptUpdate(it->key.gcm, body, &done, body, (int)length));
    must(EVP_EncryptFinal_ex(it->key.gcm, body + length, &done));
    must(EVP_CIPHER_CTX_ctrl(it->key.gcm, EVP_CTRL_AEAD_GET_TAG, TAG, body + length));
#endif
}

/* Opens a body of this length, behind which its tag stands. */
static void unseal(struct session *it, uint64_t index, const octet *head, octet *body, size_t length) {
    octet iv[SALT];
    write_iv(it, head, index, iv);
#ifdef MODES
    CRYPTO_gcm128_setiv(it->key.gcm, iv, SALT);
    must(CRYPTO_gcm128_aad(it->key.gcm, head, HEAD) == 0);
    must(CRYPTO_gcm128_decrypt(it->key.gcm, body, body, length) == 0);
    must(CRYPTO_gcm128_finish(it->key.gcm, body + length, TAG) == 0);
#else
    int done;
    must(EVP_DecryptInit_ex(it->key.gcm, NULL, NULL, NULL, iv));
    must(EVP_DecryptUpdate(it->key.gcm, NULL, &done, head, HEAD));
    if (length > 0) must(EVP_DecryptUpdate(it->key.gcm, body, &done, body, (int)length));
    must(EVP_CIPHER_CTX_ctrl(it->key.gcm, EVP_CTRL_AEAD_SET_TAG, TAG, body + length));
    must(EVP_DecryptFinal_ex(it->key.gcm, body + length, &done) > 0);
#endif
}

/* How long the field at the end is. */
static size_t field_length(const struct datagram *it) {
    return it->octets[it->length - 1] == 2 ? get(it->octets + it->length - 3, 2) : 1;
}

/* ---- the lines of the script */

static void join(struct member *members, int who) {
    struct member *it = &members[who];
    octet ekt[KEY], client[KEY + SALT], server[KEY + SALT];
    memset(it, 0, sizeof *it);
    memset(ekt, 1, sizeof ekt);
    memset(client, 0xa1 + 16 * who, sizeof client);
    memset(server, 0xa2 + 16 * who, sizeof server);
    memset(it->key, 0xa3 + 16 * who, KEY);
    derive_pair(client, client + KEY, 1, &it->hop.up, &it->hop.up_control);
    derive_pair(server, server + KEY, 0, &it->hop.down, &it->hop.down_control);
    derive_pair(client, client + KEY, 0, &it->media.up, &it->media.up_control);
    derive_pair(server, server + KEY, 1, &it->media.down, &it->media.down_control);
    derive_pair(it->key, EKT_SALT, 1, &it->inner, NULL);
    it->wrap = expanded(wrapping, ekt, 1);
    it->unwrap = expanded(wrapping, ekt, 0);
    it->index = FIRST;
    lines++;
    tell("joined %s 00000000-0000-0000-0000-%012d\n", NAMES[who], who + 1);
}

static void leave(struct member *it) {
    drop_hop(&it->hop);
    drop_hop(&it->media);
    EVP_CIPHER_CTX_free(it->wrap);
    EVP_CIPHER_CTX_free(it->unwrap);
    drop(&it->inner);
    for (int k = 0; k < MEMBERS; k++) {
        if (it->known[k].held) drop(&it->known[k].session);
    }
}

static void rekey(struct member *members, int who, uint64_t number) {
    struct member *it = &members[who];
    put(it->key, KEY, number);
    drop(&it->inner);
    derive_pair(it->key, EKT_SALT, 1, &it->inner, NULL);
    it->sent = 0;
    it->epoch++;
    lines++;
    tell("rekeyed %s 1 %u\n", NAMES[who], it->epoch);
}

/* Writes the field of a packet behind it: full in the first three under a key, in each hundredth, and where the ROC is another. */
static void write_field(struct member *it, unsigned ssrc, struct datagram *to) {
    octet *field = to->octets + to->length;
    uint64_t roc = it->index >> 16;
    int is_first = it->index != FIRST && (it->index - 1) >> 16 != roc;
    if (it->sent >= 3 && it->sent % 100 != 0 && !is_first) {
        field[0] = 0;
        to->length++;
        return;
    }
    octet plain[PLAIN];
    int length;
    plain[0] = KEY;
    memcpy(plain + 1, it->key, KEY);
    put(plain + 17, 4, ssrc);
    put(plain + 21, 4, roc);
    must(EVP_EncryptInit_ex(it->wrap, NULL, NULL, NULL, NULL));
    must(EVP_EncryptUpdate(it->wrap, field, &length, plain, PLAIN) && length == WRAPPED);
    put(field + 40, 2, 1);
    put(field + 42, 2, it->epoch);
    put(field + 44, 2, FIELD);
    field[46] = 2;
    to->length += FIELD;
}

static void send_line(struct member *members, int who, unsigned round, struct datagram *to) {
    struct member *it = &members[who];
    octet *body = to->octets + HEAD;
    size_t length = round % 40;
    to->octets[0] = 0x80;
    to->octets[1] = (octet)((round % 2) << 7 | round % 64);
    put(to->octets + 2, 2, it->index);
    put(to->octets + 4, 4, 160 * (uint64_t)round);
    put(to->octets + 8, 4, who + 1);
    memset(body, (octet)round, length);
    seal(&it->inner, it->index, to->octets, body, length);
    body[length + TAG] = 0;
    length += TAG + 1;
    seal(&it->hop.up, it->index, to->octets, body, length);
    to->length = HEAD + length + TAG;
    write_field(it, who + 1, to);
    it->index++;
    it->sent++;
    lines++;
    tell_wire("up", who, to);
}

/* The distributor takes the datagram and sends it on with a number 7 higher, and in odd rounds with another payload type. */
static void forward(struct member *members, int who, unsigned round, const struct datagram *from, struct datagram *to) {
    struct window *taken = &members[who].taken;
    octet opened[ROOM], *body = opened + HEAD;
    size_t field = field_length(from);
    size_t length = from->length - field - HEAD - TAG;
    unsigned seq = (unsigned)get(from->octets + 2, 2);
    uint64_t index = nearest(taken, seq);
    must(is_fresh(taken, index));
    memcpy(opened, from->octets, from->length - field);
    unseal(&members[who].media.up, index, opened, body, length);
    mark(taken, index);

    /* the block of originals: a sender's keeps nothing */
    must(body[--length] == 0);
    if (round % 2 == 1) {
        body[length++] = opened[1] & 0x7f;
        opened[1] = (opened[1] & 0x80) | 100;
    }
    put(body + length, 2, seq);
    body[length + 2] = round % 2 == 1 ? 3 : 1;
    length += 3;
    seq = (seq + 7) & 0xffff;
    put(opened + 2, 2, seq);

    lines++;
    for (int other = 0; other < MEMBERS; other++) {
        if (other == who) continue;
        struct window *sealed = &members[other].forwarded[who];
        index = nearest(sealed, seq);
        must(is_fresh(sealed, index));
        memcpy(to->octets, opened, HEAD + length);
        seal(&members[other].media.down, index, to->octets, to->octets + HEAD, length);
        memcpy(to->octets + HEAD + length + TAG, from->octets + from->length - field, field);
        to->length = HEAD + length + TAG + field;
        mark(sealed, index);
        tell_wire("down", other, to);
        to++;
    }
}

/* The key that a full field carries, kept as the newest of its sender, and its ROC. */
static uint64_t learn(struct member *it, struct known *known, const octet *field) {
    octet plain[WRAPPED];
    int length;
    must(EVP_DecryptInit_ex(it->unwrap, NULL, NULL, NULL, NULL));
    must(EVP_DecryptUpdate(it->unwrap, plain, &length, field, WRAPPED) && length == PLAIN);
    if (!known->held || memcmp(known->key, plain + 1, KEY) != 0) {
        if (known->held) drop(&known->session);
        memset(known, 0, sizeof *known);
        known->held = 1;
        memcpy(known->key, plain + 1, KEY);
        derive_pair(known->key, EKT_SALT, 0, &known->session, NULL);
    }
    return get(plain + 21, 4);
}

/* Puts back what the block of originals has, and answers how long the body is before it. */
static size_t restore(octet *head, const octet *body, size_t length) {
    octet kept = body[--length];
    must((kept & 0xfc) == 0);
    if (kept & 1) {
        length -= 2;
        memcpy(head + 2, body + length, 2);
    }
    if (kept & 2) head[1] = (head[1] & 0x80) | body[--length];
    return length;
}

static void deliver(struct member *members, int sender, int to, unsigned sent, unsigned number, const struct datagram *from) {
    struct member *it = &members[to];
    struct known *known = &it->known[sender];
    struct window *outer = &it->accepted[sender];
    size_t field = field_length(from);
    size_t length = from->length - field - HEAD - TAG;
    uint64_t index = nearest(outer, (unsigned)get(from->octets + 2, 2));
    lines++;
    if (!is_fresh(outer, index)) {
        refused++;
        tell("refuse %u %s outer-repeated\n", number, NAMES[to]);
        return;
    }
    octet head[ROOM], *body = head + HEAD;
    memcpy(head, from->octets, from->length - field);
    unseal(&it->hop.down, index, head, body, length);
    mark(outer, index);
    length = restore(head, body, length) - TAG;
    unsigned seq = (unsigned)get(head + 2, 2);
    if (field > 1) {
        index = learn(it, known, from->octets + from->length - field) << 16 | seq;
    } else {
        index = nearest(&known->window, seq);
    }
    must(known->held && is_fresh(&known->window, index));
    unseal(&known->session, index, head, body, length);
    mark(&known->window, index);
    accepted++;
    tell("accept %u %s %s %u %u %u %u %u ", number, NAMES[to], NAMES[sender], sent, head[1] & 0x7fu, seq, head[1] >> 7u,
         (unsigned)get(head + 4, 4));
    if (length == 0) tell("-");
    tell_octets(body, length);
    tell("\n");
}

/* ---- the script */

static void conference(unsigned rounds) {
    static struct member members[MEMBERS];
    struct datagram sent, relayed[MEMBERS - 1];
    lines = 2;
    datagrams = accepted = refused = 0;
    tell("ekt 1\n");
    for (int who = 0; who < MEMBERS; who++) join(members, who);
    for (unsigned round = 0; round < rounds; round++) {
        int who = round % MEMBERS;
        int first = who == 0 ? 1 : 0, second = who == 2 ? 1 : 2;
        unsigned number = 3 * round + 1;
        send_line(members, who, round, &sent);
        forward(members, who, round, &sent, relayed);
        deliver(members, who, first, number, number + 1, &relayed[0]);
        deliver(members, who, second, number, number + 2, &relayed[1]);
        if (round % 5 == 4) deliver(members, who, first, number, number + 1, &relayed[0]);
        if (round % 30 == 29) rekey(members, who, 1000 + (uint64_t)round);
    }
    for (int who = 0; who < MEMBERS; who++) leave(&members[who]);
}

int main(int count, char **words) {
    if (count != 3) {
        fputs("usage: make ROUNDS TIMES\n", stderr);
        return 2;
    }
    unsigned rounds = (unsigned)strtoul(words[1], NULL, 10);
    unsigned long times = strtoul(words[2], NULL, 10);
    ecb = EVP_CIPHER_fetch(NULL, "AES-128-ECB", NULL);
    gcm = EVP_CIPHER_fetch(NULL, "AES-128-GCM", NULL);
    wrapping = EVP_CIPHER_fetch(NULL, "AES-128-WRAP-PAD", NULL);
    must(ecb != NULL && gcm != NULL && wrapping != NULL);
    telling = times == 0;
    for (unsigned long time = 0; time < (telling ? 1 : times); time++) conference(rounds);
    must(accepted == 2 * rounds && refused == rounds / 5);
    if (telling) {
        printf("made %u lines %u datagrams %u accepted %u refused %u sum %u\n", rounds, lines, datagrams, accepted, refused, sum);
        printf("%s, %s\n", OpenSSL_version(OPENSSL_VERSION), OPENSSL_info(OPENSSL_INFO_CPU_SETTINGS));
    }
    return 0;
}
