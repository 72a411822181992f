/* differential SEED READS WRITES: see library.rs, which this starts. */
#include <stdint.h>
#include <stdio.h>
#include <stdlib.h>

int32_t differential(uint64_t seed, uint64_t reads, uint64_t writes);

int main(int argc, char **argv)
{
    if (argc != 4) {
        fprintf(stderr, "usage: differential SEED READS WRITES\n");
        return 2;
    }
    return differential(strtoull(argv[1], NULL, 10), strtoull(argv[2], NULL, 10), strtoull(argv[3], NULL, 10));
}
