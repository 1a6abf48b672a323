/* A service that answers with the primes below the number in its argument, two bytes each. It keeps them on the heap. */

typedef unsigned char u8;
typedef unsigned short u16;
typedef unsigned long u64;

struct output {
    const void *bytes;
    u64 len;
};

/* Makes the heap longer by so many bytes, and gives where it ended before, or 0. */
extern void *more_heap(u64 size);

struct output main(const u8 *argument, u64 len) {
    u64 limit = 0;
    for (u64 i = 0; i < len && i < 2; i++)
        limit |= (u64)argument[i] << 8 * i;
    u16 *primes = more_heap(2 * limit);
    u8 *composite = more_heap(limit);
    if (!primes || !composite)
        __builtin_trap();
    u64 count = 0;
    for (u64 n = 2; n < limit; n++) {
        if (composite[n])
            continue;
        primes[count++] = (u16)n;
        for (u64 m = n * n; m < limit; m += n)
            composite[m] = 1;
    }
    return (struct output){primes, 2 * count};
}
