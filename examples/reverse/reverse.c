// A service that answers with the bytes of its argument in reverse order.

struct answer {
    const void *bytes;
    unsigned long len;
};

static unsigned char reversed[4096];

// Copies bytes in reverse order.
static void reverse(unsigned char *into, const unsigned char *bytes, unsigned long len) {
    for (unsigned long at = 0; at < len; at++)
        into[at] = bytes[len - 1 - at];
}

// An argument of more than 4096 bytes is cut.
struct answer main(const unsigned char *argument, unsigned long len) {
    if (len > sizeof reversed)
        len = sizeof reversed;
    reverse(reversed, argument, len);
    return (struct answer){reversed, len};
}
