/* A yardstick for `fss feed`: it makes the same reads and writes (takes of 4,096 bytes, one write a
 * reply) and answers NULL records by hand, with no check but the record's length. */
#include <stdint.h>
#include <string.h>
#include <unistd.h>

int main(void)
{
    unsigned char room[4096], record[72], reply[28] = {0x80, 0, 0, 24, 0, 0, 0, 0, 0, 0, 0, 1};
    size_t have = 0;
    ssize_t n;
    while ((n = read(0, room, sizeof room)) > 0) {
        size_t at = 0;
        while (at < (size_t)n) {
            size_t want = have < 4 ? 4 - have : 44 - have;
            size_t part = (size_t)n - at < want ? (size_t)n - at : want;
            memcpy(record + have, room + at, part);
            have += part;
            at += part;
            if (have == 44) {
                memcpy(reply + 4, record + 4, 4);
                size_t put = 0;
                while (put < sizeof reply) {
                    ssize_t m = write(1, reply + put, sizeof reply - put);
                    if (m <= 0)
                        return 3;
                    put += (size_t)m;
                }
                have = 0;
            }
        }
    }
    return n < 0 ? 2 : have == 0 ? 0 : 4;
}
