// The weights, and a sum with them.

static const unsigned weights[4] = {1, 3, 5, 7};

unsigned long weighted(const unsigned char *bytes, unsigned long len) {
    unsigned long sum = 0;
    for (unsigned long at = 0; at < len; at++)
        sum += (unsigned long)weights[at % 4] * bytes[at];
    return sum;
}
