/* yardstick LEFT RIGHT LEFT_OUT RIGHT_OUT REPORT: what frames cost a program that does for the workloads of `bench/run` what the gateway
 * does for them, without settings, clocks of bindings, sessions or names. It takes the frames of two raw little-endian captures in the order
 * of their stamps, verifies both sums, renames both addresses by tables, adjusts the sums (RFC 1624), and writes both captures and the
 * report of one line a frame, the same octets as the gateway. Captures of Ethernet go out with the addresses below. It trusts its input. */
#include <arpa/inet.h>
#include <fcntl.h>
#include <stdint.h>
#include <stdio.h>
#include <stdlib.h>
#include <string.h>
#include <unistd.h>

enum { BUFFER = 1 << 20, LONGEST = 1 << 18, SIDES = 2 };

struct input { int file; uint8_t *octets; size_t start, end; };
struct output { int file; uint8_t *octets; size_t length; };

static const uint8_t HEAD[20] = "\x4d\x3c\xb2\xa1\2\0\4\0\0\0\0\0\0\0\0\0\0\0\4\0";
static const uint8_t ETHERNET[SIDES][14] = {"\2\0\0\0\0\2\2\0\0\0\0\1\x08\0", "\2\0\0\0\1\2\2\0\0\0\1\1\x08\0"}; /* what goes out to each realm */
static uint32_t alias_of[1 << 16], host_of[256], hosts; /* hosts of the left realm, by their last octets, in network order */

static uint16_t get16(const uint8_t *at) { uint16_t value; memcpy(&value, at, 2); return value; }
static uint32_t get32(const uint8_t *at) { uint32_t value; memcpy(&value, at, 4); return value; }
static void put16(uint8_t *at, uint16_t value) { memcpy(at, &value, 2); }
static void put32(uint8_t *at, uint32_t value) { memcpy(at, &value, 4); }

/* Whether so many octets stand ahead; where they don't yet, reads. */
static int has(struct input *in, size_t count) {
    while (in->end - in->start < count) {
        memmove(in->octets, in->octets + in->start, in->end - in->start);
        in->end -= in->start;
        in->start = 0;
        ssize_t got = read(in->file, in->octets + in->end, BUFFER + LONGEST - in->end);
        if (got <= 0) return 0;
        in->end += got;
    }
    return 1;
}

static void flush(struct output *out) {
    for (size_t done = 0; done < out->length;) {
        ssize_t written = write(out->file, out->octets + done, out->length - done);
        if (written <= 0) exit(6);
        done += written;
    }
    out->length = 0;
}

static uint8_t *room(struct output *out, size_t count) {
    if (out->length + count > BUFFER) flush(out);
    out->length += count;
    return out->octets + out->length - count;
}

static uint64_t sum(const uint8_t *at, size_t count, uint64_t total) {
    uint64_t word;
    for (; count >= 8; at += 8, count -= 8) { memcpy(&word, at, 8); total += word; total += total < word; }
    word = 0;
    memcpy(&word, at, count);
    total += word;
    return total + (total < word);
}

static uint16_t fold(uint64_t total) {
    total = (total >> 32) + (uint32_t)total;
    total = (total >> 32) + (uint32_t)total;
    total = (total >> 16) + (total & 0xffff);
    total = (total >> 16) + (total & 0xffff);
    return (total >> 16) + (total & 0xffff);
}

static void adjust(uint8_t *at, uint64_t old, uint64_t new) { put16(at, ~fold((uint16_t)~get16(at) + (uint64_t)(uint16_t)~fold(old) + fold(new))); }

static int is_right(const uint8_t *ip, size_t total) {
    uint64_t pseudo = sum(ip + 12, 8, htons(total - 20) + (uint64_t)htons(ip[9]));
    return fold(sum(ip, 20, 0)) == 0xffff && fold(sum(ip + 20, total - 20, pseudo)) == 0xffff;
}

/* The alias of a host of the left realm: the next one of the pool, where it has none. */
static uint32_t alias(uint32_t host) {
    uint32_t *found = &alias_of[ntohl(host) & 0xffff];
    if (!*found) { *found = htonl(0xac100901 + hosts); host_of[(1 + hosts++) & 255] = host; }
    return *found;
}

static void rename_datagram(uint8_t *ip, int side) {
    uint32_t source = get32(ip + 12), destination = get32(ip + 16);
    uint32_t new_source = side ? htonl(0xc0a8c801) : alias(source);
    uint32_t new_destination = side ? host_of[ntohl(destination) & 255] : htonl(0x0a000005);
    uint64_t old = (uint64_t)source + destination, new = (uint64_t)new_source + new_destination;
    uint16_t life = get16(ip + 8);
    put32(ip + 12, new_source);
    put32(ip + 16, new_destination);
    ip[8]--;
    adjust(ip + 10, old + life, new + get16(ip + 8));
    uint8_t *at = ip + (ip[9] == 6 ? 36 : 26);
    adjust(at, old, new);
    if (ip[9] == 17 && !get16(at)) put16(at, 0xffff);
}

static size_t put_number(uint8_t *line, size_t at, uint64_t number) {
    do line[--at] = '0' + number % 10; while (number /= 10);
    line[--at] = ' ';
    return at;
}

static void put_line(struct output *report, uint64_t number, int side, uint64_t moment) {
    uint8_t line[80];
    size_t at = sizeof line;
    memcpy(line + (at -= 8), " pass 1\n", 8);
    at = put_number(line, at, moment);
    at -= side ? 6 : 5;
    memcpy(line + at, side ? " right" : " left", side ? 6 : 5);
    at = put_number(line, at, number) + 1;
    memcpy(room(report, sizeof line - at), line + at, sizeof line - at);
}

static uint64_t stamp(struct input *in) {
    return has(in, 16) ? get32(in->octets + in->start) * 1000000000ull + get32(in->octets + in->start + 4) * 1000ull : UINT64_MAX;
}

static struct output created(const char *name) { return (struct output){open(name, O_WRONLY | O_CREAT | O_TRUNC, 0644), malloc(BUFFER + LONGEST), 0}; }

int main(int count, char **words) {
    if (count != 6) return 2;
    struct input in[SIDES];
    struct output out[SIDES], report = created(words[5]);
    uint64_t next[SIDES], events = 0, sent[SIDES] = {0, 0};
    size_t front = 0; /* the octets in front of a datagram */
    for (int side = 0; side < SIDES; side++) {
        in[side] = (struct input){open(words[1 + side], O_RDONLY), malloc(BUFFER + LONGEST), 0, 0};
        out[side] = created(words[3 + side]);
        if (!has(&in[side], 24)) return 7;
        const uint8_t *link = in[side].octets + 20;
        front = get32(link) == 1 ? sizeof ETHERNET[side] : 0;
        in[side].start += 24;
        memcpy(room(&out[side], 20), HEAD, 20);
        memcpy(room(&out[side], 4), link, 4);
        next[side] = stamp(&in[side]);
    }
    alias(htonl(0x0a000005));
    while (next[0] != UINT64_MAX || next[1] != UINT64_MAX) {
        int side = next[0] > next[1];
        size_t length = get32(in[side].octets + in[side].start + 8);
        if (!has(&in[side], 16 + length) || !is_right(in[side].octets + in[side].start + 16 + front, length - front)) return 4;
        uint8_t *sent_as = room(&out[!side], 16 + length);
        memcpy(sent_as, in[side].octets + in[side].start, 16 + length);
        put32(sent_as + 4, next[side] % 1000000000);
        memcpy(sent_as + 16, ETHERNET[!side], front);
        rename_datagram(sent_as + 16 + front, side);
        in[side].start += 16 + length;
        sent[!side]++;
        put_line(&report, ++events, side, next[side]);
        next[side] = stamp(&in[side]);
    }
    char done[160];
    int length = snprintf(done, sizeof done, "done events=%llu passed=%llu refused=0 to_left=%llu to_right=%llu pending=0\n", (unsigned long long)events,
                          (unsigned long long)events, (unsigned long long)sent[0], (unsigned long long)sent[1]);
    memcpy(room(&report, length), done, length);
    flush(&out[0]);
    flush(&out[1]);
    flush(&report);
    return 0;
}
