/* Document 01's example, event by event: six bytes from the host and a read for the modulator.
   At the top of the repository, on x86-64,
   (cd crates/tnc_link_c && rt lib) && cp crates/tnc_link_c/out/libtnc_link_c.a libtnc_link.a
   cc -o ticket link/tnc_example.c libtnc_link.a && ./ticket
   prints `01 0 0` six times, then `08 1 1 0A`. */
#include "iflazrud_tnc.h"
#include <stdio.h>

static uint8_t reader[IFLAZRUD_READER], packets[IFLAZRUD_PACKETS], streams[IFLAZRUD_STREAMS], rx[IFLAZRUD_RX], message[IFLAZRUD_MESSAGE], bytes[IFLAZRUD_BYTES];

static struct iflazrud_tnc event(struct iflazrud_tnc tnc, uint8_t kind, const uint8_t *body, size_t len) {
    struct iflazrud_event e = iflazrud_tnc_event(tnc, kind, body, len, reader, sizeof reader, packets, sizeof packets, streams, sizeof streams, rx, sizeof rx, message,
                                                 sizeof message, bytes, sizeof bytes);
    printf("%02X %u %d", kind, e.number, e.ptt);
    for (size_t i = 0; i < e.count; i++) {
        printf("%s%02X", i == 0 ? " " : "", bytes[i]);
    }
    printf("\n");
    return e.tnc;
}

int main(void) {
    const uint8_t host[] = {0xC0, 0x01, 0x0A, 0xC0, 0x00, 0xC0};
    struct iflazrud_tnc tnc = iflazrud_tnc_new();
    for (size_t i = 0; i < sizeof host; i++) {
        tnc = event(tnc, 1, host + i, 1);
    }
    event(tnc, 8, host, 0);
    return 0;
}
