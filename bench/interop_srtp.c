/* Opens packets with libsrtp2, for bench/interop: SRTP and SRTCP with AES-GCM and a tag of 16 octets (RFC 7714).

   The first line of the output names the library. Each line of the input asks one thing:

       RECEIVER WINDOW ROC rtp|rtcp MASTER PACKET

   RECEIVER is a number below 4096: one that is named for the first time begins as a receiver of any SSRC with a replay window
   of WINDOW places and this master (key and salt). Where it is `once`, a receiver is made for this packet alone, which begins at
   the roll-over counter ROC. The answer is `open` and the packet, or `refused` and libsrtp2's status. */

#include <srtp2/srtp.h>
#include <stdint.h>
#include <stdio.h>
#include <stdlib.h>
#include <string.h>

#define RECEIVERS 4096
#define MOST 2048

static void need(srtp_err_status_t status, const char *what)
{
    if (status != srtp_err_status_ok) {
        fprintf(stderr, "libsrtp2 can't %s: status %d\n", what, (int)status);
        exit(1);
    }
}

/* The next word of the line. */
static const char *word(void)
{
    const char *next = strtok(NULL, " \n");
    return next != NULL ? next : "";
}

/* The octets that the digits spell. */
static size_t octets_of(const char *digits, uint8_t *into)
{
    size_t length = strlen(digits) / 2;
    if (length > MOST) {
        fprintf(stderr, "more than %d octets\n", MOST);
        exit(1);
    }
    for (size_t at = 0; at < length; at++) {
        unsigned value;
        sscanf(digits + 2 * at, "%2x", &value);
        into[at] = (uint8_t)value;
    }
    return length;
}

/* A receiver of this SSRC, or of any. */
static srtp_t begin(uint8_t *master, size_t length, unsigned long window, const uint32_t *ssrc)
{
    srtp_policy_t policy;
    srtp_t receiver;
    memset(&policy, 0, sizeof policy);
    if (length == SRTP_AES_GCM_256_KEY_LEN_WSALT) {
        srtp_crypto_policy_set_aes_gcm_256_16_auth(&policy.rtp);
        srtp_crypto_policy_set_aes_gcm_256_16_auth(&policy.rtcp);
    } else {
        srtp_crypto_policy_set_aes_gcm_128_16_auth(&policy.rtp);
        srtp_crypto_policy_set_aes_gcm_128_16_auth(&policy.rtcp);
    }
    policy.ssrc.type = ssrc != NULL ? ssrc_specific : ssrc_any_inbound;
    policy.ssrc.value = ssrc != NULL ? *ssrc : 0;
    policy.key = master;
    policy.window_size = window;
    need(srtp_create(&receiver, &policy), "begin a receiver with AES-GCM");
    return receiver;
}

/* A receiver for one packet, at this roll-over counter. */
static srtp_t begin_at(uint8_t *master, size_t length, unsigned long window, uint32_t roc, const uint8_t *packet)
{
    uint32_t ssrc = (uint32_t)packet[8] << 24 | (uint32_t)packet[9] << 16 | (uint32_t)packet[10] << 8 | packet[11];
    srtp_t receiver = begin(master, length, window, &ssrc);
    need(srtp_set_stream_roc(receiver, ssrc, roc), "set a roll-over counter");
    return receiver;
}

static void answer(srtp_err_status_t status, const uint8_t *packet, int length)
{
    if (status != srtp_err_status_ok) {
        printf("refused %d\n", (int)status);
        return;
    }
    printf("open ");
    for (int at = 0; at < length; at++)
        printf("%02x", packet[at]);
    printf("\n");
}

int main(void)
{
    static srtp_t receivers[RECEIVERS];
    char *line = NULL;
    size_t room = 0;
    need(srtp_init(), "begin");
    printf("%s\n", srtp_get_version_string());
    while (getline(&line, &room, stdin) > 0) {
        const char *who = strtok(line, " \n");
        unsigned long window = strtoul(word(), NULL, 10);
        uint32_t roc = (uint32_t)strtoul(word(), NULL, 10);
        int is_rtcp = strcmp(word(), "rtcp") == 0;
        uint8_t master[MOST] = { 0 };
        _Alignas(uint32_t) uint8_t packet[MOST] = { 0 };
        size_t master_length = octets_of(word(), master);
        int length = (int)octets_of(word(), packet);
        int once = strcmp(who, "once") == 0;
        srtp_t *receiver = once ? NULL : &receivers[strtoul(who, NULL, 10) % RECEIVERS];
        srtp_t used = once ? begin_at(master, master_length, window, roc, packet) : *receiver;
        if (used == NULL)
            used = *receiver = begin(master, master_length, window, NULL);
        srtp_err_status_t status = is_rtcp ? srtp_unprotect_rtcp(used, packet, &length) : srtp_unprotect(used, packet, &length);
        answer(status, packet, length);
        if (once)
            srtp_dealloc(used);
    }
    free(line);
    return 0;
}
