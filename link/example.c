/* Cuts the frames out of standard input and prints each in hex. At the top of the repository, on x86-64:
   (cd crates/iflazrud && rt lib) && cc -o frames link/example.c crates/iflazrud/out/libiflazrud.a
   printf '\125\300\001\005\300\002\006\300' | ./frames */
#include "iflazrud.h"
#include <stdio.h>

int main(void) {
    static uint8_t store[1713], in[4096];
    struct iflazrud_reader reader = {0, false};
    size_t n;
    while ((n = fread(in, 1, sizeof in, stdin)) > 0) {
        size_t at = 0;
        while (at < n) {
            struct iflazrud_reader_answer w = iflazrud_reader_write(reader, in + at, n - at, store, sizeof store);
            if (w.number != 0) {
                return 1;
            }
            reader = w.reader;
            at += w.count;
            for (;;) {
                struct iflazrud_reader_answer f = iflazrud_reader_next(reader, store, sizeof store);
                reader = f.reader;
                if (f.count == 0) {
                    break;
                }
                for (size_t i = 0; i < f.count; i++) {
                    printf("%02X", store[i]);
                }
                printf("\n");
            }
        }
    }
    return 0;
}
