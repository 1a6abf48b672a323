/* A service that asks its host for the value of a key, and tells it to store a default where there is none. */

typedef unsigned char u8;
typedef unsigned long u64;

struct output {
    const void *bytes;
    u64 len;
};

#define NONE (~0ul)

/* The host's calls: the length of the value, which is written to `into`, or NONE; and 0 for a value that is stored. */
extern u64 fetch(const u8 *key, u64 len, u8 *into, u64 room);
extern u64 store(const u8 *key, u64 len, const u8 *value, u64 value_len);

static u8 value[64];
static const u8 fallback[] = "none yet";

struct output main(const u8 *key, u64 len) {
    u64 found = fetch(key, len, value, sizeof value);
    if (found != NONE)
        return (struct output){value, found};
    if (store(key, len, fallback, sizeof fallback - 1) != 0)
        __builtin_trap();
    return (struct output){fallback, sizeof fallback - 1};
}
