/* The job of crates/decode in plain C: a recording on standard input, its listing on standard output.
 * Written from documents 01 and 02 alone; no header is needed, so that the kit's own clang builds it anywhere.
 * PACKET_BITS says how many bits the packet check takes at once: 4, by sixteen words, or 8, by 256. SOURCE says what comes in:
 * a recording, or KISS or raw bits, with t as the program's word. */
#ifndef PACKET_BITS
#define PACKET_BITS 4
#endif
enum { RECORDING, KISS, BITS };
#ifndef SOURCE
#define SOURCE RECORDING
#endif

typedef unsigned char u8;
typedef unsigned short u16;
typedef unsigned int u32;
typedef unsigned long size_t;
typedef long ssize_t;

ssize_t read(int, void *, size_t);
ssize_t write(int, const void *, size_t);
void *memcpy(void *, const void *, size_t);
void *memmove(void *, const void *, size_t);

enum { FRAME_LEAST = 23, FRAME_MOST = 274, HEADER = 16, PACKET_LEAST = 16, PACKET_MOST = 251, LENGTH_MOST = 1024 };
enum { NONE_STARTS = 255, RAW = 254 };

/* ---- Input and output */

static u8 in[65536], out[65536];
static u8 *in_at = in, *in_end = in, *out_at = out;
static int failed;

static void told(const char *text, size_t n) { write(2, text, n); }

static void flush(void)
{
    for (u8 *p = out; p < out_at;) {
        ssize_t n = write(1, p, (size_t)(out_at - p));
        if (n <= 0) {
            if (!failed)
                told("write failed\n", 13);
            failed = 1;
            break;
        }
        p += n;
    }
    out_at = out;
}

/* Whether n octets stand at in_at, which may mean reading; whatever is to be written is written before. */
static int have(size_t n)
{
    size_t held = (size_t)(in_end - in_at);
    if (held >= n)
        return 1;
    flush();
    memmove(in, in_at, held);
    in_at = in;
    in_end = in + held;
    while ((size_t)(in_end - in) < n) {
        ssize_t got = read(0, in_end, (size_t)(in + sizeof in - in_end));
        if (got <= 0) {
            if (got < 0)
                told("read failed\n", 12);
            return 0;
        }
        in_end += got;
    }
    return 1;
}

static u32 word(const u8 *p) { return (u32)p[0] << 8 | p[1]; }
static u32 four(const u8 *p) { return word(p) << 16 | word(p + 2); }

static void text(const char *s, size_t n)
{
    memcpy(out_at, s, n);
    out_at += n;
}

static void number(u32 n)
{
    u8 digits[10], *p = digits + 10;
    do
        *--p = (u8)('0' + n % 10);
    while (n /= 10);
    while (p < digits + 10)
        *out_at++ = *p++;
}

static void next(u32 n)
{
    *out_at++ = ' ';
    number(n);
}

/* ---- The two checks */

static u16 high_first[1 << PACKET_BITS], low_first[256];

static void make_tables(void)
{
    for (u32 i = 0; i < 1 << PACKET_BITS; i++) {
        u32 h = i << (16 - PACKET_BITS);
        for (int k = 0; k < PACKET_BITS; k++)
            h = h & 0x8000 ? h << 1 ^ 0x1021 : h << 1;
        high_first[i] = (u16)h;
    }
    for (u32 i = 0; i < 256; i++) {
        u32 l = i;
        for (int k = 0; k < 8; k++)
            l = l & 1 ? l >> 1 ^ 0x8408 : l >> 1;
        low_first[i] = (u16)l;
    }
}

static u16 packet_check(const u8 *p, size_t n)
{
    u16 s = 0xFFFF;
    for (size_t i = 0; i < n; i++) {
#if PACKET_BITS == 4
        s ^= (u16)(p[i] << 8);
        s = (u16)(s << 4 ^ high_first[s >> 12]);
        s = (u16)(s << 4 ^ high_first[s >> 12]);
#else
        s = (u16)(s << 8 ^ high_first[s >> 8 ^ p[i]]);
#endif
    }
    return s;
}

static u16 frame_check(const u8 *p, size_t n)
{
    u16 s = 0xFFFF;
    for (size_t i = 0; i < n; i++)
        s = (u16)(s >> 8 ^ low_first[(s ^ p[i]) & 0xFF]);
    return s ^ 0xFFFF;
}

/* ---- The frame */

/* What an address octet is: a letter or digit, a space, or neither. */
enum { OTHER, SIGN, SPACE };
static u8 kind[256];

static void make_kinds(void)
{
    for (u32 c = 'A'; c <= 'Z'; c++)
        kind[c << 1] = SIGN;
    for (u32 c = '0'; c <= '9'; c++)
        kind[c << 1] = SIGN;
    kind[' ' << 1] = SPACE;
}

static int address(const u8 *p, u8 last)
{
    int i = 0;
    while (i < 6 && kind[p[i]] == SIGN)
        i++;
    if (i == 0)
        return 0;
    while (i < 6 && kind[p[i]] == SPACE)
        i++;
    return i == 6 && (p[6] & 0xE1) == (0x60 | last);
}

/* The refusal of a frame of n octets, or 0. */
static int frame_refusal(const u8 *f, size_t n, size_t t)
{
    if (n < FRAME_LEAST + t || n > FRAME_MOST)
        return 10;
    if (frame_check(f, n - 2) != ((u32)f[n - 1] << 8 | f[n - 2]))
        return 11;
    if (!address(f, 0))
        return 120;
    if (!address(f + 7, 1))
        return 121;
    if (f[14] != 0x03)
        return 122;
    if (f[15] != 0xF0)
        return 123;
    if (f[HEADER] & 0xC7)
        return 13;
    if ((f[n - 3 - t] & 0xFC) != (t ? (7 + t) << 4 : 0))
        return 14;
    size_t data = n - FRAME_LEAST - t;
    u8 pointer = f[HEADER + 3];
    if (pointer >= data && pointer != NONE_STARTS && !(pointer == RAW && data))
        return 15;
    return 0;
}

/* ---- The session */

/* `first` is the arrival number of the frame with the first octet held. */
struct channel {
    u8 heard, in_step, last;
    u16 length;
    u32 first;
    u8 held[PACKET_MOST];
};

static struct channel channels[8];
static u8 master_heard, master_last;

struct piece {
    const u8 *octets;
    u32 length, first;
};
static struct piece packets[16];
static u8 finished[PACKET_MOST];

/* Rules 2 to 5 for one frame's data; how many packets it completes, which stand in `packets`. */
static u32 take(struct channel *c, u32 arrival, u32 pointer, const u8 *data, u32 n)
{
    u32 at = 0, count = 0;
    if (pointer == RAW)
        return 0;
    if (c->in_step) {
        u32 held = c->length, wanted = NONE_STARTS;
        int wrong = 0;
        if (!held) {
            wanted = n ? 0 : NONE_STARTS;
        } else if (held + n >= 6) {
            u8 high = held > 4 ? c->held[4] : data[4 - held];
            u8 low = held > 5 ? c->held[5] : data[5 - held];
            u32 whole = ((u32)high << 8 | low) + 7;
            wrong = whole < PACKET_LEAST || whole > PACKET_MOST;
            if (!wrong) {
                u32 rest = whole - held;
                if (rest < n)
                    wanted = rest;
                if (pointer == wanted && rest <= n) {
                    memcpy(finished, c->held, held);
                    memcpy(finished + held, data, rest);
                    packets[count++] = (struct piece){ finished, whole, c->first };
                    c->length = 0;
                    at = rest;
                }
            }
        }
        if (wrong || pointer != wanted) {
            c->length = 0;
            c->in_step = 0;
            at = 0;
        }
    }
    if (!c->in_step) {
        if (pointer == NONE_STARTS)
            return 0;
        at = pointer;
        c->in_step = 1;
    }
    if (c->length == 0)
        while (n - at >= 6) {
            u32 whole = word(data + at + 4) + 7;
            if (whole < PACKET_LEAST || whole > PACKET_MOST) {
                c->in_step = 0;
                return count;
            }
            if (whole > n - at)
                break;
            packets[count++] = (struct piece){ data + at, whole, arrival };
            at += whole;
        }
    if (c->length == 0)
        c->first = arrival;
    memcpy(c->held + c->length, data + at, n - at);
    c->length += n - at;
    return count;
}

/* With no last count to compare with. */
#define UNKNOWN 256

static u32 lost_since(u8 *heard, u8 *last, u8 count)
{
    u32 lost = *heard ? (u8)(count - *last - 1) : UNKNOWN;
    *heard = 1;
    *last = count;
    return lost;
}

/* ---- The listing */

static void loss(u32 lost)
{
    if (lost == UNKNOWN)
        text(" ?", 2);
    else
        next(lost);
}

static int packet_refusal(const u8 *p, u32 n)
{
    if (n < PACKET_LEAST || n > PACKET_MOST || n != word(p + 4) + 7)
        return 20;
    if (packet_check(p, n))
        return 21;
    if ((p[0] & 0xF8) != 0x08 || (p[2] & 0xC0) != 0xC0 || p[6] != 0x10)
        return 22;
    return 0;
}

static void packet_line(u32 first, u32 arrival, const u8 *p, u32 n)
{
    int refusal = packet_refusal(p, n);
    *out_at++ = refusal ? 'Q' : 'P';
    next(first);
    next(arrival);
    if (refusal) {
        next((u32)refusal);
    } else {
        next(word(p) & 0x7FF);
        next(word(p + 2) & 0x3FFF);
        next(p[7]);
        next(p[8]);
    }
    next(n);
    *out_at++ = '\n';
}

/* The start of a frame's line, and whether more of it is told. */
static int answered(u32 arrival, int refusal)
{
    if (out_at > out + sizeof out - 1024)
        flush();
    number(arrival);
    next((u32)refusal);
    if (refusal)
        text(" - - - -\n", 9);
    return !refusal;
}

static void frame_lines(u32 arrival, const u8 *f, size_t n, size_t t)
{
    if (!answered(arrival, frame_refusal(f, n, t)))
        return;
    struct channel *c = &channels[f[HEADER] >> 3];
    u32 lost = lost_since(&c->heard, &c->last, f[HEADER + 2]);
    u32 master = lost_since(&master_heard, &master_last, f[HEADER + 1]);
    if (lost && lost != UNKNOWN) {
        c->length = 0;
        c->in_step = 0;
    }
    u32 count = take(c, arrival, f[HEADER + 3], f + HEADER + 4, (u32)(n - FRAME_LEAST - t));
    next(f[HEADER] >> 3);
    loss(lost);
    loss(master);
    next(count);
    *out_at++ = '\n';
    for (u32 i = 0; i < count; i++)
        packet_line(packets[i].first, arrival, packets[i].octets, packets[i].length);
}

static void header(void) { text("arrival answer channel lost master packets\n", 43); }

/* Whether the recording is a good one. */
static int listed(void)
{
    if (!have(5) || four(in_at) != 1 || in_at[4] > 8)
        return 0;
    size_t t = in_at[4];
    in_at += 5;
    header();
    if (!have(4))
        return 0;
    u32 count = four(in_at);
    in_at += 4;
    for (u32 n = 0; n < count;) {
        if (!have(2))
            return 0;
        size_t length = word(in_at);
        if (length > LENGTH_MOST || !have(2 + length))
            return 0;
        frame_lines(++n, in_at + 2, length, t);
        in_at += 2 + length;
    }
    return !have(1);
}

/* The frame that a stream has begun: one octet more than the longest is kept. */
static u8 begun[FRAME_MOST + 1 + 2];
static u32 arrivals;

/* ---- KISS */

enum { END = 0xC0, ESCAPE = 0xDB, ESCAPED_END = 0xDC, ESCAPED_ESCAPE = 0xDD };

static void kiss_block(u32 type, u32 n, int wrong, size_t t)
{
    if (wrong) {
        answered(++arrivals, 18);
    } else if (type) {
        answered(++arrivals, 19);
    } else {
        if (n + 2 <= FRAME_MOST) {
            u16 check = frame_check(begun, n);
            begun[n] = (u8)check;
            begun[n + 1] = (u8)(check >> 8);
        }
        frame_lines(++arrivals, begun, n + 2 > FRAME_MOST ? FRAME_MOST + 1 : n + 2, t);
    }
}

static void kiss_listed(size_t t)
{
    u32 seen = 0, any = 0, escaped = 0, wrong = 0, type = 0, first = 1, n = 0;
    while (have(1)) {
        for (; in_at < in_end; in_at++) {
            u8 x = *in_at;
            if (x == END) {
                if (seen && any)
                    kiss_block(type, n, (int)(wrong | escaped), t);
                seen = first = 1;
                any = escaped = wrong = type = n = 0;
                continue;
            }
            any = 1;
            if (escaped) {
                escaped = 0;
                if (x == ESCAPED_END)
                    x = END;
                else if (x == ESCAPED_ESCAPE)
                    x = ESCAPE;
                else
                    wrong = 1;
            } else if (x == ESCAPE) {
                escaped = 1;
                continue;
            }
            if (first) {
                type = x;
                first = 0;
            } else if (n < FRAME_MOST) {
                begun[n++] = x;
            }
        }
        flush();
    }
}

/* ---- Raw bits */

/* Of an octet: how many 1s its bits begin with, 8 if five stand in a row among them, how many they end with, and its bits turned round. */
struct eight {
    u8 lead, trail, turned;
};
static struct eight eights[256];

static void make_eights(void)
{
    for (u32 x = 0; x < 256; x++) {
        struct eight e = { 0, 0, 0 };
        u32 run = 0, five = 0;
        for (u32 i = 0; i < 8; i++) {
            u32 bit = x >> (7 - i) & 1;
            run = bit ? run + 1 : 0;
            five |= run == 5;
            if (run == i + 1)
                e.lead = (u8)run;
            e.turned |= (u8)(bit << i);
        }
        e.trail = (u8)run;
        if (five)
            e.lead = 8;
        eights[x] = e;
    }
}

static void bits_stretch(u32 lost, u32 odd, u32 n, size_t t)
{
    if (lost)
        answered(++arrivals, 17);
    else if (odd)
        answered(++arrivals, 16);
    else if (n)
        frame_lines(++arrivals, begun, n, t);
}

/* `ones` 1s came last, 7 where no flag can end behind them; `odd` bits of an octet had begun before the last 0. */
static void bits_listed(size_t t)
{
    u32 seen = 0, ones = 0, lost = 0, odd = 0, last = 0, bits = 0, n = 0;
    make_eights();
    while (have(1)) {
        for (; in_at < in_end; in_at++) {
            u32 x = *in_at;
            struct eight e = eights[x];
            if (ones + e.lead < 5) {
                if (n <= FRAME_MOST)
                    begun[n++] = (u8)(((u32)e.turned << 8 | last) >> (8 - bits));
                last = e.turned;
                ones = e.trail;
                odd = (bits + 7 - e.trail) & 7;
                continue;
            }
            for (u32 i = 0; i < 8; i++) {
                u32 bit = x >> (7 - i) & 1;
                if (bit) {
                    ones++;
                    if (ones == 6 && bits == 5 && !n)
                        ones = 7;
                    if (ones >= 7) {
                        ones = 7;
                        lost = 1;
                    }
                } else if (ones == 6) {
                    if (seen)
                        bits_stretch(lost, odd, n, t);
                    seen = 1;
                    ones = lost = odd = last = bits = n = 0;
                    continue;
                } else {
                    u32 stuffed = ones == 5;
                    ones = 0;
                    odd = bits;
                    if (stuffed)
                        continue;
                }
                last = last >> 1 | bit << 7;
                if (++bits == 8) {
                    bits = 0;
                    if (n <= FRAME_MOST)
                        begun[n++] = (u8)last;
                }
            }
        }
        flush();
    }
}

int main(int words, char **word)
{
    make_tables();
    make_kinds();
    if (SOURCE == RECORDING) {
        if (!listed())
            text("bad recording\n", 14);
    } else if (words == 2) {
        header();
        (SOURCE == KISS ? kiss_listed : bits_listed)((size_t)(word[1][0] - '0'));
    }
    flush();
    return 0;
}
