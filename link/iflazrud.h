/* The functions of crates/iflazrud/out/libiflazrud.a (`rt lib` in crates/iflazrud makes it), for C on x86-64. Each is
   proved to meet the contract in crates/iflazrud/src/lib.rt for every argument; what C owes is that each pointer leads to
   as many bytes as the length behind it says, and that no two of them overlap. */
#ifndef IFLAZRUD_H
#define IFLAZRUD_H
#include <stdbool.h>
#include <stddef.h>
#include <stdint.h>

/* A number of document 01 (0 is done, 1 to 8 refuse and change nothing), and how many bytes. */
struct iflazrud_counted {
    uint8_t number;
    size_t count;
};

/* The KISS reader's record; a new one is {0, false}. Its store is 1,713 bytes. */
struct iflazrud_reader {
    size_t filled;
    bool taken;
};

struct iflazrud_reader_answer {
    uint8_t number;
    size_t count;
    struct iflazrud_reader reader;
};

uint16_t iflazrud_m17_crc(const uint8_t *bytes, size_t len);
struct iflazrud_counted iflazrud_escape(const uint8_t *src, size_t len, uint8_t *dst, size_t room);
size_t iflazrud_unescape(const uint8_t *src, size_t len, uint8_t *dst, size_t room);
struct iflazrud_counted iflazrud_new_full_packet(const uint8_t *lsf, size_t lsf_len, const uint8_t *packet, size_t len, uint8_t *dst, size_t room);

/* Offers bytes; count says how many were taken. Take frames until there is none, then offer the rest. */
struct iflazrud_reader_answer iflazrud_reader_write(struct iflazrud_reader reader, const uint8_t *offered, size_t len, uint8_t *store, size_t store_len);

/* The next whole frame stands at the store's start and is count bytes long; count 0: there is none. */
struct iflazrud_reader_answer iflazrud_reader_next(struct iflazrud_reader reader, uint8_t *store, size_t store_len);
#endif
