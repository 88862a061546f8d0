/* A hand-written counterpart of `afdx police`, to compare speeds with. Nothing about it is proved.
 *
 *     police_baseline BAG_MS LMAX JITTER_US LIST        (LIST "-" is standard input)
 *
 * It does the same job in the same order: read a frame list as a stream, check each line, decode
 * the hexadecimal digits, check the seal of an R line's frame (CRC-32), judge the frame, keep one
 * account per side, and print one V line per frame. Faults of the list are the same lines on
 * standard error with the same statuses.
 *
 * It is made for speed, in plain C that `cc -O2` compiles well:
 *
 * - a line is read once, as if it were sound; one that isn't is looked at again for its first fault
 * - digits are decoded in blocks by arithmetic without branches, which the compiler makes vectors
 * - the check sequence takes 16 bytes a step, by 16 tables
 * - the line's number is kept as digits, which are counted up in place
 * - what is printed is copied from texts of one size, without a loop
 */
#include <fcntl.h>
#include <stdint.h>
#include <stdio.h>
#include <stdlib.h>
#include <string.h>
#include <unistd.h>

enum { CHUNK = 65536, LONGEST_LINE = 4200, MOST_LINES = 1000000 };
#define K 128000000ULL             /* 128 ms in ns: the account counts bytes over K */
#define LATEST 1000000000000000ULL /* 10^15 ns */

/* ---- check sequence ---------------------------------------------------------------------- */

static uint32_t table[16][256]; /* table[t][b]: what the byte b does when t bytes follow it */

static void make_table(void) {
    for (uint32_t i = 0; i < 256; i++) {
        uint32_t r = i;
        for (int k = 0; k < 8; k++) r = r & 1 ? r >> 1 ^ 0xedb88320u : r >> 1;
        table[0][i] = r;
    }
    for (int t = 1; t < 16; t++)
        for (int i = 0; i < 256; i++)
            table[t][i] = table[t - 1][i] >> 8 ^ table[0][table[t - 1][i] & 255];
}

static uint32_t four_bytes(const uint8_t *p) {
    return p[0] | p[1] << 8 | p[2] << 16 | (uint32_t)p[3] << 24;
}

/* What four bytes do when `after` bytes follow them. */
static inline uint32_t folded(uint32_t four, int after) {
    return table[after + 3][four & 255] ^ table[after + 2][four >> 8 & 255]
         ^ table[after + 1][four >> 16 & 255] ^ table[after][four >> 24];
}

static uint32_t check_sequence(const uint8_t *p, size_t n) {
    uint32_t r = 0xffffffffu;
    for (; n >= 16; n -= 16, p += 16) {
        r = folded(four_bytes(p) ^ r, 12);
#pragma GCC unroll 12
        for (int i = 4; i < 16; i++) r ^= table[15 - i][p[i]];
    }
    for (; n >= 4; n -= 4, p += 4) r = folded(four_bytes(p) ^ r, 0);
    while (n--) r = r >> 8 ^ table[0][(r ^ *p++) & 255];
    return ~r;
}

/* ---- digits ------------------------------------------------------------------------------ */

enum { BLOCK = 32 }; /* hexadecimal digits that are decoded at a time */

/* The value of a hexadecimal digit. */
static inline uint8_t value_of(uint8_t digit) {
    uint8_t low = digit - '0', high = (digit | 32) - 'a' + 10;
    return low < high ? low : high;
}

/* 0 if it is a hexadecimal digit. */
static inline uint8_t wrong_in(uint8_t digit) {
    uint8_t low = digit - '0', letter = (digit | 32) - 'a';
    uint8_t not_low = low > 9 ? low - 9 : 0, not_letter = letter > 5 ? letter - 5 : 0;
    return not_low < not_letter ? not_low : not_letter;
}

/* Decodes an even number of digits, a block or more; the answer is 0 where one is no digit. The
 * last block ends with the last digit, and so overlaps the one before it. */
static int decode_blocks(const uint8_t *restrict digits, size_t n, uint8_t *restrict bytes) {
    uint8_t wrong[BLOCK / 2] = {0}, any = 0;
    for (size_t at = 0;; at = at + 2 * BLOCK <= n ? at + BLOCK : n - BLOCK) {
        for (int i = 0; i < BLOCK / 2; i++) {
            uint8_t first = digits[at + 2 * i], second = digits[at + 2 * i + 1];
            bytes[at / 2 + i] = value_of(first) << 4 | value_of(second);
            wrong[i] |= wrong_in(first) | wrong_in(second);
        }
        if (at + BLOCK == n) break;
    }
    for (int i = 0; i < BLOCK / 2; i++) any |= wrong[i];
    return !any;
}

/* The same of any even number of digits. */
static int decode(const uint8_t *digits, size_t n, uint8_t *bytes) {
    uint8_t padded[BLOCK];
    if (n >= BLOCK) return decode_blocks(digits, n, bytes);
    memset(padded, '0', BLOCK);
    memcpy(padded, digits, n);
    return decode_blocks(padded, BLOCK, bytes);
}

/* Eight bytes that are decimal digits become their number, first of two, then of four of them. */
static int read_eight(const uint8_t *p, uint64_t *value) {
    uint64_t v = (four_bytes(p) | (uint64_t)four_bytes(p + 4) << 32) ^ 0x3030303030303030;
    if ((v | (v + 0x0606060606060606)) & 0xf0f0f0f0f0f0f0f0) return 0;
    v = (v * 10 + (v >> 8)) & 0x00ff00ff00ff00ff;
    v = (v * 100 + (v >> 16)) & 0x0000ffff0000ffff;
    *value = (v * 10000 + (v >> 32)) & 0xffffffff;
    return 1;
}

/* Reads decimal digits, and answers where they end; what has more than 18 is the greatest. */
static const uint8_t *read_number(const uint8_t *p, uint64_t *value) {
    uint64_t v = 0;
    while (*p == '0') p++;
    const uint8_t *first = p;
    if (read_eight(p, &v)) p += 8;
    for (unsigned digit; (digit = *p - (unsigned)'0') <= 9; p++) v = v * 10 + digit;
    *value = p - first > 18 ? UINT64_MAX : v;
    return p;
}

/* ---- output ------------------------------------------------------------------------------ */

enum { LONGEST_TEXT = 32 }; /* of a line of output, and of its parts, each with room after it */

struct text {
    char bytes[LONGEST_TEXT];
    size_t length;
};

static char out[CHUNK];
static size_t out_len;
static struct text begin = {"V 1", 3}; /* how the next line's verdict begins */

static int flush(void) {
    for (size_t done = 0; done < out_len;) {
        ssize_t n = write(1, out + done, out_len - done);
        if (n <= 0) return 0;
        done += (size_t)n;
    }
    out_len = 0;
    return 1;
}

/* Ends the program with one line on standard error; the verdicts so far stand. */
static void end(const char *text, uint64_t line, int status) {
    if (!flush() && status == 0) {
        text = "device Write";
        line = 0;
        status = 4;
    }
    if (text) {
        if (line) fprintf(stderr, "%s %llu\n", text, (unsigned long long)line);
        else fprintf(stderr, "%s\n", text);
    }
    exit(status);
}

static void put(const struct text *text) {
    memcpy(out + out_len, text->bytes, LONGEST_TEXT);
    out_len += text->length;
}

/* Counts the line's number in `begin` up by one. */
static void count_line(void) {
    size_t at = begin.length - 1;
    while (begin.bytes[at] == '9') begin.bytes[at--] = '0';
    if (begin.bytes[at] != ' ') {
        begin.bytes[at]++;
        return;
    }
    begin.bytes[at + 1] = '1';
    begin.bytes[begin.length++] = '0';
}

/* ---- one frame --------------------------------------------------------------------------- */

struct rule { uint64_t lmax, smax, rate, cap, longest_gap; };
struct account { uint64_t level, time; };

enum verdict {
    ACCEPT, TOO_SHORT, TOO_LONG, BAD_FCS, BAD_ADDRESS, UNKNOWN_LINK, WRONG_PORT, OVER_LMAX,
    OVER_RATE, VERDICTS
};
static const char *const words[VERDICTS] = {
    "accept", "drop too-short", "drop too-long", "drop bad-fcs", "drop bad-address",
    "drop unknown-link", "drop wrong-port", "drop over-lmax", "drop over-rate",
};

static struct rule rule;
static struct account accounts[2];
static struct text verdicts[2][VERDICTS]; /* by side: how a line goes on after its number */
static uint8_t frame[LONGEST_LINE / 2 + 4 + BLOCK];

static void make_verdicts(void) {
    for (int side = 0; side < 2; side++)
        for (int v = 0; v < VERDICTS; v++) {
            struct text *text = &verdicts[side][v];
            text->length = (size_t)sprintf(text->bytes, " %c %s\n", "AB"[side], words[v]);
        }
}

static int passes(struct account *a, uint64_t time, uint64_t length) {
    uint64_t gap = time - a->time, cost = (length + 20) * K;
    if (gap > rule.longest_gap) gap = rule.longest_gap;
    a->level += gap * rule.rate;
    if (a->level > rule.cap) a->level = rule.cap;
    a->time = time;
    if (a->level < cost) return 0;
    a->level -= cost;
    return 1;
}

static enum verdict judge(int side, uint64_t time, uint64_t port, int sealed, size_t length) {
    if (length < 64) return TOO_SHORT;
    if (length > 1518) return TOO_LONG;
    if (!sealed) return BAD_FCS;
    if (four_bytes(frame) != 3) return BAD_ADDRESS;
    if (frame[4] != 0 || frame[5] != 1) return UNKNOWN_LINK;
    if (port != 1) return WRONG_PORT;
    if (length > rule.lmax) return OVER_LMAX;
    return passes(&accounts[side], time, length) ? ACCEPT : OVER_RATE;
}

/* Whether the frame's check sequence is right, and the frame's length with it. That of an F or B
 * line is known to be right, or wrong, and isn't found: nothing prints it. */
static int is_sealed(char kind, size_t *length) {
    if (kind == 'R') {
        if (*length < 4) return 0;
        return check_sequence(frame, *length - 4) == four_bytes(frame + *length - 4);
    }
    *length += 4;
    return kind == 'F';
}

/* ---- one line ---------------------------------------------------------------------------- */

struct line { char kind, side; uint64_t time, port; size_t length; };

static uint64_t last_time;

/* Reads a line's fields, and decodes its frame; the answer is 0 where it has a fault. The byte at
 * `stop` is a line's end, and so none of those that are looked for here. */
static int read_line(const uint8_t *p, const uint8_t *stop, struct line *line) {
    line->kind = (char)*p++;
    if (line->kind != 'F' && line->kind != 'B' && line->kind != 'R') return 0;
    if (*p++ != ' ') return 0;
    const uint8_t *digits = p;
    p = read_number(digits, &line->time);
    if (p == digits || *p++ != ' ') return 0;
    line->side = (char)*p++;
    if (line->side != 'A' && line->side != 'B') return 0;
    if (*p++ != ' ') return 0;
    digits = p;
    p = read_number(digits, &line->port);
    if (p == digits || *p++ != ' ') return 0;
    size_t n = (size_t)(stop - p);
    line->length = n / 2;
    if (line->time > LATEST || line->time < last_time) return 0;
    if (line->port < 1 || line->port > 24) return 0;
    if (n == 1) return *p == '-';
    return n > 0 && n % 2 == 0 && decode(p, n, frame);
}

/* A field of decimal digits alone? */
static int is_number(const uint8_t *p, const uint8_t *stop, uint64_t *value) {
    return read_number(p, value) == stop;
}

/* The first fault of a line that has one, in the order in which they are looked for. */
static const char *fault_of(const uint8_t *p, const uint8_t *stop) {
    const uint8_t *field[6];
    size_t fields = 0;
    for (field[0] = p; p <= stop; p++)
        if (p == stop || *p == ' ') {
            if (p == field[fields] || fields == 5) return "list BadLine";
            field[++fields] = p + 1;
        }
    uint64_t time, port;
    if (fields != 5 || field[1] - field[0] != 2 || field[3] - field[2] != 2
        || !memchr("FBR", *field[0], 3) || !memchr("AB", *field[2], 2)
        || !is_number(field[1], field[2] - 1, &time) || !is_number(field[3], field[4] - 1, &port))
        return "list BadLine";
    if (time > LATEST) return "list TimeTooLarge";
    if (time < last_time) return "list TimeBack";
    if (port < 1 || port > 24) return "list BadPort";
    return "list BadHex";
}

static void handle(const uint8_t *p, const uint8_t *stop, uint64_t number) {
    struct line line;
    if (stop > p && stop[-1] == '\r') stop--;
    if (stop == p || *p == '#') return;
    if (!read_line(p, stop, &line)) end(fault_of(p, stop), number, 3);
    last_time = line.time;
    int side = line.side == 'B', sealed = is_sealed(line.kind, &line.length);
    if (out_len > CHUNK - 3 * LONGEST_TEXT && !flush()) {
        out_len = 0;
        end("device Write", 0, 4);
    }
    put(&begin);
    put(&verdicts[side][judge(side, line.time, line.port, sealed, line.length)]);
}

/* ---- the list ---------------------------------------------------------------------------- */

static void run(int file) {
    /* an unfinished line, the next chunk, and room for what is looked at beyond a field's end */
    static uint8_t held[LONGEST_LINE + CHUNK + 16];
    size_t start = 0, stop = 0;
    uint64_t line = 1;
    for (;;) {
        uint8_t *feed;
        while ((feed = memchr(held + start, '\n', stop - start))) {
            size_t n = (size_t)(feed - (held + start));
            if (line > MOST_LINES) end("list TooManyLines", 0, 3);
            if (n > LONGEST_LINE) end("list LineTooLong", line, 3);
            handle(held + start, feed, line++);
            count_line();
            start += n + 1;
        }
        if (stop > start && line > MOST_LINES) end("list TooManyLines", 0, 3);
        if (stop - start > LONGEST_LINE) end("list LineTooLong", line, 3);
        memmove(held, held + start, stop - start);
        stop -= start;
        start = 0;
        ssize_t n = read(file, held + stop, CHUNK);
        if (n < 0) end("device Read", 0, 4);
        if (n == 0) break;
        stop += (size_t)n;
    }
    held[stop] = '\n';
    if (stop) handle(held, held + stop, line);
}

int main(int argc, char **argv) {
    if (argc != 5) {
        fprintf(stderr, "usage: police_baseline BAG_MS LMAX JITTER_US LIST\n");
        return 2;
    }
    uint64_t bag = strtoull(argv[1], 0, 10), lmax = strtoull(argv[2], 0, 10);
    uint64_t jitter = strtoull(argv[3], 0, 10);
    int file = strcmp(argv[4], "-") ? open(argv[4], O_RDONLY) : 0;
    if (file < 0) end("device List", 0, 4);
    if (bag < 1 || bag > 128 || bag & (bag - 1) || lmax < 64 || lmax > 1518 || jitter > 1000 * bag)
        end("words BadRule", 0, 2);

    rule.lmax = lmax;
    rule.smax = lmax + 20;
    rule.rate = rule.smax * (128 / bag);
    rule.longest_gap = bag * 1000000 + jitter * 1000;
    rule.cap = rule.rate * rule.longest_gap;
    accounts[0].level = accounts[1].level = rule.cap;
    make_table();
    make_verdicts();
    run(file);
    end(0, 0, 0);
}
