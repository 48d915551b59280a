/* A session machine as a CAN stack's broadcast receiver has it: one session a sender, filled in place. It reads a log of frames (one
   window item, then frame items, with times or without), checks what the rules (docs/RULES.md) ask of frames and payloads, and prints the same R lines as `cart`. */
#include <stdint.h>
#include <stdio.h>
#include <string.h>

struct session {
    uint8_t size, count, next;
    uint8_t bytes[89 + 7];
    uint8_t timed;
    uint32_t last;
};

static struct session sessions[254];
static uint32_t reports;

static uint32_t le16(const uint8_t *p) { return p[0] | p[1] << 8; }
static uint32_t le24(const uint8_t *p) { return le16(p) | (uint32_t)p[2] << 16; }
static uint32_t le32(const uint8_t *p) { return le24(p) | (uint32_t)p[3] << 24; }

static int announcement(struct session *s, const uint8_t *data)
{
    uint32_t size = le16(data + 1), count = data[3];
    int code = 0;

    if (data[0] != 32)
        return 4;
    if (size < 9 || size > 1785 || count != (size + 6) / 7)
        code = 5;
    else if (le24(data + 5) != 65300)
        code = 6;
    else if (size != 17 && (size < 20 || size > 89))
        code = 7;
    if (code) {
        s->size = s->count = s->next = 0;
        return code;
    }
    s->size = size;
    s->count = count;
    s->next = 1;
    memset(s->bytes, 255, sizeof s->bytes);
    return 0;
}

static int payload_good(const uint8_t *p, unsigned size)
{
    if (p[0] != 1 || le16(p + 1) != 2 || p[5] != 2 || le16(p + 6) != 2 || p[10] != 3 || le16(p + 11) != 4)
        return 0;
    if (le16(p + 3) > 4095 || le16(p + 8) > 4095)
        return 0;
    /* the heat of a report of the second edition */
    if (size >= 22 && p[17] == 5) {
        if (le16(p + 18) != 2 || le16(p + 20) > 4095)
            return 0;
        p += 5;
        size -= 5;
    }
    return size == 17 || (size >= 20 && p[17] == 4 && le16(p + 18) == size - 20 && size <= 84);
}

static int packet(struct session *s, const uint8_t *data)
{
    unsigned size = s->size;

    if (!s->count)
        return 8;
    if (data[0] != s->next) {
        s->size = s->count = s->next = 0;
        return 9;
    }
    memcpy(s->bytes + 7 * (s->next - 1), data + 1, 7);
    if (s->next < s->count) {
        s->next++;
        return 0;
    }
    s->size = s->count = s->next = 0;
    if (!payload_good(s->bytes, size))
        return 10;
    if (reports == 1000000)
        return 11;
    reports++;
    return 0;
}

/* A time of -1 is none. */
static int frame(int64_t time, const uint8_t *value)
{
    uint32_t id = le32(value), format = id >> 16 & 255;
    struct session *s;
    int code;

    if (id >= 1u << 29)
        return 1;
    if ((id >> 24 & 3) || (format != 235 && format != 236) || (id >> 8 & 255) != 255)
        return 2;
    if ((id & 255) > 253)
        return 3;
    s = &sessions[id & 255];
    if (time >= 0 && s->timed) {
        if (time < s->last)
            return 26;
        if (time - s->last > 750)
            s->size = s->count = s->next = 0;
    }
    code = format == 236 ? announcement(s, value + 4) : packet(s, value + 4);
    if (time >= 0 && (code == 0 || code == 11)) {
        s->timed = 1;
        s->last = time;
    }
    return code;
}

int main(void)
{
    static uint8_t room[1 << 17];
    size_t have = 0, got;
    unsigned long item = 0;

    while ((got = fread(room + have, 1, 1 << 16, stdin)) > 0) {
        size_t at = 0;
        have += got;
        while (have - at >= 3 && have - at >= 3 + le16(room + at + 1)) {
            size_t length = le16(room + at + 1);
            int code = 0;
            item++;
            if (room[at] == 18 && length == 12)
                code = frame(-1, room + at + 3);
            else if (room[at] == 21 && length == 16)
                code = frame(le32(room + at + 3), room + at + 7);
            else if (item > 1) {
                fprintf(stderr, "item %lu is not a frame\n", item);
                return 1;
            }
            if (code)
                printf("R %lu %d\n", item, code);
            at += 3 + length;
        }
        have -= at;
        memmove(room, room + at, have);
    }
    return 0;
}
