// A service that answers with a weighted sum of the bytes of its argument: eight bytes, the least first.

struct answer {
    const void *bytes;
    unsigned long len;
};

unsigned long weighted(const unsigned char *bytes, unsigned long len);

static unsigned long sum;

struct answer main(const unsigned char *argument, unsigned long len) {
    sum = weighted(argument, len);
    return (struct answer){&sum, sizeof sum};
}
