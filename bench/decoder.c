/* A straightforward decoder of the intake's job, for measuring: finds frames and sentences, copies each record out, judges it and keeps its entry. */
#include <stdint.h>
#include <stdio.h>
#include <string.h>
#include <unistd.h>

enum { REACH = 8192, ENTRIES = 3968 };
typedef struct { uint64_t place; uint16_t len; uint8_t kind, series; uint16_t verdict, fault; } entry;

static entry table[ENTRIES];
static uint8_t buffer[2 * REACH], space[REACH];

static unsigned word(const uint8_t *p) { return p[0] | p[1] << 8; }

static uint16_t checksum(const uint8_t *p, size_t n) {
    uint16_t s = 0xB58C;
    for (size_t i = 0; i + 1 < n; i += 2) s += word(p + i);
    if (n % 2) s += p[n - 1] << 8;
    return s;
}

/* the length of the frame that begins here, 0 for none, -1 where more bytes are needed */
static long binary(const uint8_t *p, size_t n) {
    if (n == 0) return -1;
    if (p[0] != 0xA5) return 0;
    if (n == 1) return -1;
    if (p[1] != 10) return 0;
    if (n < 10) return -1;
    unsigned size = word(p + 4);
    if (p[3] != 0x10 || word(p + 8) != checksum(p, 8) || size > 8182) return 0;
    if (n - 10 < size) return -1;
    return checksum(p + 10, size) == word(p + 6) ? 10 + (long)size : 0;
}

static int hex(uint8_t c) { return c >= '0' && c <= '9' ? c - '0' : c >= 'A' && c <= 'F' ? c - 'A' + 10 : -1; }

static long sentence(const uint8_t *p, size_t n) {
    if (n == 0) return -1;
    if (p[0] != '$') return 0;
    size_t k = 1;
    uint8_t x = 0;
    while (k < n && k <= 507 && p[k] >= 0x20 && p[k] <= 0x7E && p[k] != '$' && p[k] != '*') x ^= p[k++];
    if (k > 507) return 0;
    if (k == n) return -1;
    if (k < 2 || p[k] != '*') return 0;
    if (n < k + 5) return -1;
    int high = hex(p[k + 1]), low = hex(p[k + 2]);
    return high >= 0 && low >= 0 && 16 * high + low == x && p[k + 3] == '\r' && p[k + 4] == '\n' ? (long)k + 5 : 0;
}

static unsigned clock_fault(const uint8_t *p, unsigned at) {
    static const uint8_t days[] = {31, 28, 31, 30, 31, 30, 31, 31, 30, 31, 30, 31};
    unsigned year = p[at] + 1900, month = p[at + 1];
    if (month > 11) return at + 1;
    unsigned most = days[month] + (month == 1 && year % 4 == 0 && (year % 100 != 0 || year % 400 == 0));
    if (p[at + 2] == 0 || p[at + 2] > most) return at + 2;
    if (p[at + 3] > 23) return at + 3;
    if (p[at + 4] > 59) return at + 4;
    if (p[at + 5] > 59) return at + 5;
    return word(p + at + 6) > 9999 ? at + 6 : 0;
}

static uint16_t judge_df3(const uint8_t *p, size_t n, uint16_t *fault) {
    *fault = 4;
    if (n < 86) return 11;
    if (*fault = 10, p[10] != 3) return 12;
    if (*fault = 11, p[11] < 76 || p[11] > n - 10) return 13;
    if ((*fault = clock_fault(p, 18))) return 14;
    unsigned layout = word(p + 40), cells = layout % 1024, beams = layout >> 12, config = word(p + 12), items = beams * cells;
    if (*fault = 40, beams < 1 || beams > 5 || cells < 1) return 15;
    unsigned from = p[11] + (config >> 5 & 1) * 2 * items + (config >> 6 & 1) * items, count = (config >> 7 & 1) * items;
    if (*fault = 12, from + count > n - 10) return 16;
    if (*fault = 46, p[46] > 100) return 17;
    for (unsigned i = 0; i < count; i++)
        if (p[10 + from + i] > 100) { *fault = 10 + from + i; return 17; }
    *fault = 0;
    return 0;
}

static uint16_t judge_df7(const uint8_t *p, size_t n, uint16_t *fault) {
    *fault = 4;
    if (n < 70) return 11;
    if (*fault = 11, p[11] != 0x30 && p[11] != 0x40) return 12;
    if (*fault = 12, word(p + 12) < 60 || word(p + 12) > n - 10) return 13;
    if ((*fault = clock_fault(p, 34))) return 14;
    return 0;
}

static uint16_t judge(const uint8_t *p, size_t n, int kind, uint16_t *fault) {
    *fault = 0;
    if (kind == 1) {
        if (p[2] == 0x15 || p[2] == 0x16 || p[2] == 0x18) return judge_df3(p, n, fault);
        if (p[2] == 0x26) return judge_df7(p, n, fault);
        if (p[2] != 0xA0) return 10;
        if (n > 10) return 0;
        *fault = 4;
        return 18;
    }
    unsigned commas = 0;
    for (size_t i = 1; i < n && p[i] != '*'; i++)
        if (p[i] == ',' && ++commas == 64) { *fault = i; return 19; }
    return 0;
}

int main(void) {
    uint64_t base = 0, records = 0, passed = 0;
    size_t start = 0, end = 0, listed = 0;
    int closed = 0;
    for (;;) {
        if (start > REACH) { memmove(buffer, buffer + start, end - start); base += start; end -= start; start = 0; }
        while (!closed && end < start + REACH) {
            ssize_t n = read(0, buffer + end, start + REACH - end);
            if (n <= 0) closed = 1; else end += n;
        }
        for (;;) {
            int kind = 1;
            long n = binary(buffer + start, end - start);
            if (n == 0) { kind = 2; n = sentence(buffer + start, end - start); }
            if (n < 0 && (!closed || start == end)) break;
            if (n <= 0) { passed++; start++; continue; }
            memcpy(space, buffer + start, n);
            entry *e = &table[listed++ % ENTRIES];
            e->place = base + start; e->len = n; e->kind = kind; e->series = kind == 1 ? space[2] : 0;
            e->verdict = judge(space, n, kind, &e->fault);
            records++;
            start += n;
        }
        if (closed) break;
    }
    printf("accepted %llu records %llu passed %llu waiting 0\n", (unsigned long long)(base + end), (unsigned long long)records, (unsigned long long)passed);
    return 0;
}
