/* The TNC in libtnc_link.a, for C on x86-64: a record that the host keeps, five stores, and one function that applies an
   event of document 01. `rt lib` in crates/tnc_link_c makes the archive, as out/libtnc_link_c.a there; copy it to
   libtnc_link.a. It is proved to meet the contract in crates/tnc_link_c/src/lib.rt for every argument; what C owes is
   that each pointer leads to as many bytes as the length behind it says, and that no two of them overlap. */
#ifndef IFLAZRUD_TNC_H
#define IFLAZRUD_TNC_H
#include <stdbool.h>
#include <stddef.h>
#include <stdint.h>

/* A host keeps the record whole and hands it back as the last call left it. */
struct iflazrud_tnc {
    struct {
        size_t filled;
        bool taken;
    } buffer;
    struct {
        struct {
            struct {
                bool due;
                size_t len;
                size_t sent;
            } places[4];
            size_t next;
            size_t curr;
            bool full;
        } packets;
        struct {
            size_t next;
            size_t curr;
            bool full;
            bool pending;
        } streams;
        uint8_t tx_delay;
    } sending;
    uint8_t state;
    uint64_t value;
    struct {
        size_t len;
        size_t read;
    } outgoing;
    bool ptt;
    struct {
        uint64_t clock;
        bool carrier;
        bool waits;
        uint64_t check;
        bool duplex;
    } channel;
};

/* The number that the event program prints, how many of the room's bytes it prints, PTT as after the event, and the record after it. */
struct iflazrud_event {
    uint8_t number;
    size_t count;
    bool ptt;
    struct iflazrud_tnc tnc;
};

/* The stores' lengths. */
enum { IFLAZRUD_READER = 1713, IFLAZRUD_PACKETS = 3420, IFLAZRUD_STREAMS = 230, IFLAZRUD_RX = 855, IFLAZRUD_MESSAGE = 1713, IFLAZRUD_BYTES = 255 };

struct iflazrud_tnc iflazrud_tnc_new(void);

struct iflazrud_event iflazrud_tnc_event(struct iflazrud_tnc tnc, uint8_t kind, const uint8_t *body, size_t len, uint8_t *reader, size_t reader_len, uint8_t *packets,
                                         size_t packets_len, uint8_t *streams, size_t streams_len, uint8_t *rx, size_t rx_len, uint8_t *message, size_t message_len,
                                         uint8_t *bytes, size_t bytes_len);
#endif
