/* The circuit engine with its raw takes, in plain C: what a unit without proofs would run. It is here to be measured against.
 *
 *     plain [SAMPLES] < INPUT > OUTPUT
 *
 * INPUT, OUTPUT and SAMPLES are those of the program `take`. The exit status is the number of the refusal, 0 where there is none; its
 * place is not told. The take is worked in calls of SAMPLES samples, 10,000 where none is given, and every call looks at rules 3 to 12 and
 * lays the circuit out anew, as `feed` does.
 *
 * For little-endian machines and compilers like GCC and clang, with -ffp-contract=off where a processor can multiply and add in one step.
 * It wants no header.
 */

typedef unsigned char u8;
typedef unsigned short u16;
typedef int i32;
typedef unsigned u32;
typedef long long i64;

extern long read(int, void *, unsigned long);
extern long write(int, const void *, unsigned long);
extern void *memcpy(void *, const void *, unsigned long);

enum {
    ROWS = 31,
    COLUMNS = 62,
    ROUNDED_DOWN = 1,           /* the version that rounds down; a later one rounds toward zero */
    LAST_VERSION = 2,
    SHIFT = 24,
    PARTS = 1 << SHIFT,         /* a ratio counts parts of this many */
    SOURCE_LIMIT = 1 << 24,     /* microvolts of a steady source */
    WAVE_LIMIT = 1 << 26,       /* microvolts of a column's x, a stored wave, a wave at the diode or at a leaf */
    TOP = 255,
    NO_SEGMENT = 255,
    PIECE = 10000
};

enum { BLANK, RESISTOR, CAPACITOR, INDUCTOR, INPUT, STEADY, SERIES, PARALLEL };
enum { SINGLE = 1, PAIR };

static int is_reactive(u8 kind) { return kind == CAPACITOR || kind == INDUCTOR; }
static int is_leaf(u8 kind) { return kind >= RESISTOR && kind <= STEADY; }
static int is_adaptor(u8 kind) { return kind >= SERIES; }

/* ---- the circuit file, which is the record as it stands */

struct row { u8 kind, first, second, mark; i32 microvolts; double value; };
struct column { i32 x, y; };

static union {
    u32 words[3][128];
    struct {
        u16 version;
        u8 count, tap, curve, width, zeros[2];
        u32 rate, more_zeros;
        double resistance;
        u8 unused[484];
        u32 check;
        struct row row[ROWS];
        u8 unused_1[12];
        u32 check_1;
        struct column column[COLUMNS];
        u8 unused_2[12];
        u32 check_2;
    };
} file;

static int bad_version(void) { return file.version < 1 || file.version > LAST_VERSION; }

static int any(const void *from, unsigned long n)
{
    const u8 *byte = from;
    u8 all = 0;
    for (unsigned long i = 0; i < n; i++) all |= byte[i];
    return all;
}

/* Does a byte hold something that the row's kind does not use? */
static int row_unused(const struct row *r)
{
    const u8 *bytes = (const u8 *)r;
    if (r->kind == BLANK) return any(bytes + 1, 15);
    if (is_adaptor(r->kind)) return any(bytes + 3, 13);
    return any(bytes + 1, 2) || r->mark > 1 || (r->kind != STEADY && r->microvolts);
}

static int file_unused(void)
{
    for (int i = 0; i < ROWS; i++)
        if (file.row[i].kind > PARALLEL || row_unused(&file.row[i])) return 1;
    return any(file.zeros, 2) || file.more_zeros || any(file.unused, sizeof file.unused)
        || any(file.unused_1, sizeof file.unused_1) || any(file.unused_2, sizeof file.unused_2);
}

/* Rules 1 to 3, and of 4 what a file alone can break. */
static int read_file(long length)
{
    if (length != sizeof file) return 1;
    for (u32 block = 0; block < 3; block++) {
        u32 sum = block + 1;
        for (int i = 0; i < 127; i++) sum += file.words[block][i];
        if (sum != file.words[block][127]) return 2;
    }
    if (bad_version()) return 3;
    return file_unused() ? 4 : 0;
}

/* ---- set-up: rules 3 to 12 */

static double resistance[ROWS];
static i32 ratio[ROWS];
static i32 wave[ROWS];          /* the stored waves, carried from call to call */

static int bad_form(void)
{
    int bad = 0;
    if (file.count < 1 || file.count > ROWS || file.width < 2 || file.width > COLUMNS
        || (file.curve != SINGLE && file.curve != PAIR))
        return 1;
    for (int i = 0; i < ROWS; i++)
        bad |= ((file.row[i].kind == BLANK) != (i >= file.count)) | (file.row[i].mark && !is_leaf(file.row[i].kind));
    for (int j = file.width; j < COLUMNS; j++) bad |= file.column[j].x | file.column[j].y;
    return bad;
}

static int bad_tree(void)
{
    int inputs = 0;
    u8 used[ROWS] = { 0 };
    for (int i = 0; i < file.count; i++) {
        const struct row *r = &file.row[i];
        if (is_adaptor(r->kind)) {
            if (r->first >= i || r->second >= i) return 1;
            used[r->first]++;
            used[r->second]++;
        }
        inputs += r->kind == INPUT;
    }
    for (int i = 0; i < file.count - 1; i++)
        if (used[i] != 1) return 1;
    return inputs != 1 || (file.tap != TOP && (file.tap >= file.count || !is_leaf(file.row[file.tap].kind)));
}

static int bad_value(void)
{
    for (int i = 0; i < file.count; i++) {
        const struct row *r = &file.row[i];
        if (is_leaf(r->kind)
            && (!(r->value > 0.0 && r->value < __builtin_inf()) || r->microvolts > SOURCE_LIMIT || r->microvolts < -SOURCE_LIMIT))
            return 1;
    }
    return 0;
}

static double port(const struct row *r)
{
    double rate = file.rate, r1, r2;
    switch (r->kind) {
    case CAPACITOR: return 1.0 / ((2.0 * r->value) * rate);
    case INDUCTOR: return (2.0 * r->value) * rate;
    case SERIES: case PARALLEL:
        r1 = resistance[r->first], r2 = resistance[r->second];
        return r->kind == SERIES ? r1 + r2 : (r1 * r2) / (r1 + r2);
    default: return r->value;
    }
}

static int bad_resistance(void)
{
    for (int i = 0; i < file.count; i++) {
        resistance[i] = port(&file.row[i]);
        if (!(resistance[i] >= 1.0 / 1024.0 && resistance[i] <= 1073741824.0)) return 1;
    }
    return 0;
}

static int bad_ratio(void)
{
    for (int i = 0; i < file.count; i++) {
        const struct row *r = &file.row[i];
        if (is_adaptor(r->kind)) {
            double r1 = resistance[r->first], r2 = resistance[r->second];
            ratio[i] = (i32)((r->kind == SERIES ? r1 : r2) / (r1 + r2) * PARTS);    /* exact, then rounded down */
            if (ratio[i] < 1 || ratio[i] > PARTS - 1) return 1;
        }
    }
    return 0;
}

static int bad_curve(void)
{
    const struct column *c = file.column;
    int origin = 0;
    if (file.curve == PAIR && (c[0].x || c[0].y)) return 1;
    for (int j = 0; j < file.width; j++) {
        if (c[j].x < -WAVE_LIMIT || c[j].x > WAVE_LIMIT) return 1;
        if (j > 0) {
            i64 run = (i64)c[j].x - c[j - 1].x, rise = (i64)c[j].y - c[j - 1].y;
            if (run <= 0 || rise > run || rise < -run) return 1;
        }
        origin |= c[j].x == 0 && c[j].y == 0;
    }
    return !origin;
}

static int bad_fit(void)
{
    double q = file.resistance, top = resistance[file.count - 1];
    return !(q * 1024.0 >= top * 1023.0 && q * 1024.0 <= top * 1025.0);
}

static int bad_waves(void)
{
    for (int i = 0; i < ROWS; i++) {
        i32 limit = is_reactive(file.row[i].kind) ? WAVE_LIMIT : 0;
        if (wave[i] > limit || wave[i] < -limit) return 1;
    }
    return 0;
}

static int set_up(void)
{
    if (bad_version()) return 3;
    if (bad_form()) return 4;
    if (file.rate < 8000 || file.rate > 768000) return 5;
    if (bad_tree()) return 6;
    if (bad_value()) return 7;
    if (bad_resistance()) return 8;
    if (bad_ratio()) return 9;
    if (bad_curve()) return 10;
    if (bad_fit()) return 11;
    return bad_waves() ? 12 : 0;
}

/* ---- the layout
 *
 * Rows get slots: first the reactive leaves, then the other leaves, then the adaptors in their order. The reactive leaves, and all leaves,
 * are made an even number by a slot that stays 0. `up` has what each slot sends, and between samples what it sends next; `down` has what
 * arrives. Between a reversed leaf and its slot a wave changes sign.
 */

enum { SLOTS = ROWS + 3 };

struct adaptor { i64 ratio; i32 series; u16 first, second; };

/* A line of the curve, (rise * wave + base) / run, from its edge up to the next one's. The first lies left of the first column. */
struct line { i64 edge, rise, base, run; };

static int slot[ROWS];
static int leaves, reactive, adaptors;
static int input, tap, top;             /* slots */
static i64 sample_turn, meter;          /* -1 where the input, and where the tap's leaf, is reversed, and else 0 */
static struct adaptor adaptor[ROWS / 2];
static struct line line[COLUMNS + 2];
static _Alignas(16) i64 up[SLOTS], down[SLOTS];
static _Alignas(16) i64 turn[SLOTS];    /* -1 at an inductor, which stores the negative of what arrives, and else 0 */

/* Through a column with the slope from one column to another. */
static struct line through(struct column c, struct column o, struct column n)
{
    i64 rise = (i64)n.y - o.y, run = (i64)n.x - o.x;
    return (struct line){ c.x, rise, c.y * run - rise * c.x, run };
}

static void lay_curve(void)
{
    const struct column *c = file.column;
    int width = file.width;
    line[0] = through(c[0], c[0], c[1]);
    for (int j = 1; j < width; j++) line[j] = through(c[j - 1], c[j - 1], c[j]);
    line[width] = through(c[width - 1], c[width - 2], c[width - 1]);
    line[width + 1].edge = 1LL << 62;   /* past every wave */
}

static int even(int n) { return n + n % 2; }

static i64 facing(const struct row *r) { return -(i64)r->mark; }
static inline i64 turned(i64 t, i64 a) { return (a ^ t) - t; }

static void lay_out(void)
{
    int next = 0;
    for (int i = 0; i < SLOTS; i++) up[i] = turn[i] = 0;
    for (int i = 0; i < file.count; i++)
        if (is_reactive(file.row[i].kind)) {
            up[next] = turned(facing(&file.row[i]), wave[i]);
            turn[next] = file.row[i].kind == INDUCTOR ? -1 : 0;
            slot[i] = next++;
        }
    reactive = next = even(next);
    for (int i = 0; i < file.count; i++)
        if (is_leaf(file.row[i].kind) && !is_reactive(file.row[i].kind)) {
            up[next] = turned(facing(&file.row[i]), file.row[i].microvolts);
            if (file.row[i].kind == INPUT) input = next, sample_turn = facing(&file.row[i]);
            slot[i] = next++;
        }
    leaves = next = even(next);
    for (int i = 0; i < file.count; i++)
        if (is_adaptor(file.row[i].kind)) {
            const struct row *r = &file.row[i];
            adaptor[next - leaves] = (struct adaptor){ ratio[i], r->kind == SERIES, slot[r->first], slot[r->second] };
            slot[i] = next++;
        }
    adaptors = next - leaves;
    top = slot[file.count - 1];
    tap = file.tap == TOP ? top : slot[file.tap];
    meter = file.tap == TOP ? 0 : facing(&file.row[file.tap]);
    lay_curve();
}

static void store_waves(void)
{
    for (int i = 0; i < file.count; i++)
        if (is_reactive(file.row[i].kind)) wave[i] = turned(facing(&file.row[i]), up[slot[i]]);
}

/* ---- samples */

#define INLINE static inline __attribute__((always_inline))

/* For loops over few slots, an even number: clang's own unrolling costs more than it saves. */
#ifdef __clang__
#define TWO_AT_A_TIME _Pragma("clang loop vectorize_width(2) interleave_count(1) unroll(disable)")
#else
#define TWO_AT_A_TIME
#endif

/* Of the last sample that a call finished. The program has no light to show it with, so that it stands where another file might read it. */
u8 segment;

/* Halves the lines that remain, 0 to `high` at first. Asked once for both arms whether only one does, clang may choose the half without a jump,
 * and each step then waits for the one before it. */
INLINE unsigned long line_at(i64 x, unsigned long high)
{
    unsigned long low = 0;
    for (;;) {
        unsigned long middle = (low + high) / 2;
        if (line[middle + 1].edge <= x) {
            if (middle + 1 == high) return high;
            low = middle + 1;
        } else {
            if (middle == low) return low;
            high = middle;
        }
    }
}

INLINE i64 drawn(i64 x, unsigned long width, u8 *used)
{
    unsigned long n = line_at(x, width);
    *used = n;
    return (line[n].rise * x + line[n].base) / line[n].run;
}

INLINE i64 reflect(i64 x, int pair, unsigned long width, u8 *used)
{
    return pair && x < 0 ? -drawn(-x, width, used) : drawn(x, width, used);
}

static int leaf_over(void)
{
    for (int i = 0; i < leaves; i++)
        if (down[i] > WAVE_LIMIT || down[i] < -WAVE_LIMIT) return 1;
    return 0;
}

/* a + g * t / PARTS as one fraction, rounded toward zero. */
INLINE i64 mixed(i64 g, i64 a, i64 t) { return (PARTS * a + g * t) / PARTS; }

/* Works n samples, and hands back how many were done before one was refused. The byte before the first sample is read too. */
INLINE long work(const u8 *in, i32 *out, long n, int pair, int inward)
{
    const i32 *const start = out;
    const unsigned long width = file.width;
    const long joints = adaptors, kept = reactive & ~1L, ends = leaves & ~1L;     /* even, for the compiler to see */
    const i64 in_turn = sample_turn, out_turn = meter;
    i64 *const sent = &up[ends], *const arriving = &down[ends];
    u8 used;
    for (const u8 *const end = in + 3 * n; in != end; in += 3) {
        i32 sample;
        memcpy(&sample, in - 1, 4);
        up[input] = turned(in_turn, sample >> 8);       /* the byte before falls out */

        for (long k = 0; k < joints; k++) {
            const struct adaptor *a = &adaptor[k];
            i64 a1 = up[a->first], a2 = up[a->second];
            sent[k] = a->series ? -(a1 + a2) : inward ? mixed(a->ratio, a2, a1 - a2) : a2 + ((a->ratio * (a1 - a2)) >> SHIFT);
        }

        i64 risen = up[top];
        if (risen > WAVE_LIMIT || risen < -WAVE_LIMIT) return out - start;
        down[top] = reflect(risen, pair, width, &used);

        for (long k = joints - 1; k >= 0; k--) {
            const struct adaptor *a = &adaptor[k];
            i64 a1 = up[a->first], a3 = arriving[k];
            if (a->series) {                    /* a1 + a2 is minus what was sent */
                i64 b1 = inward ? mixed(a->ratio, a1, sent[k] - a3) : a1 - ((a->ratio * (a3 - sent[k])) >> SHIFT);
                down[a->first] = b1;
                down[a->second] = -(a3 + b1);
            } else {
                i64 both = sent[k] + a3;
                down[a->first] = both - a1;
                down[a->second] = both - up[a->second];
            }
        }

        /* Twice the limit is a power of two: a wave plus the limit stays below it, but for the limit itself, which is then looked at. */
        i64 past = 0;
        TWO_AT_A_TIME
        for (long i = 0; i < ends; i++) past |= down[i] + WAVE_LIMIT;
        if (past & -(2LL * WAVE_LIMIT) && leaf_over()) return out - start;

        *out++ = (i32)turned(out_turn, up[tap] + down[tap]);
        segment = used;
        TWO_AT_A_TIME
        for (long i = 0; i < kept; i++) up[i] = turned(turn[i], down[i]);
    }
    return n;
}

/* The kind of curve and the rounding are chosen once for a call. */
INLINE long work_by(const u8 *in, i32 *out, long n, int pair)
{
    return file.version == ROUNDED_DOWN ? work(in, out, n, pair, 0) : work(in, out, n, pair, 1);
}

/* A call: the refusal's number, and how many samples are done. Within `main` it would be left too few registers. */
static __attribute__((noinline)) int feed(const u8 *in, i32 *out, long n, long *done)
{
    int number = set_up();
    *done = 0;
    segment = NO_SEGMENT;
    if (number) return number;
    lay_out();
    *done = file.curve == PAIR ? work_by(in, out, n, 1) : work_by(in, out, n, 0);
    store_waves();
    return *done < n ? 15 : 0;
}

/* ---- the program */

static u8 taken[1 + 3 * PIECE];         /* one byte before the first sample */
static i32 given[PIECE];

static long read_full(void *to, long size)
{
    long have = 0, got;
    while (have < size && (got = read(0, (u8 *)to + have, size - have)) > 0) have += got;
    return have;
}

static void write_all(const void *from, long size)
{
    long put;
    while (size > 0 && (put = write(1, from, size)) > 0) from = (const u8 *)from + put, size -= put;
}

/* 0 where the text is no number from 1 to PIECE. */
static long samples_of(const char *text)
{
    long n = 0;
    for (; *text && n <= PIECE; text++) {
        if (*text < '0' || *text > '9') return 0;
        n = 10 * n + (*text - '0');
    }
    return n <= PIECE ? n : 0;
}

int main(int count, char **words)
{
    const long samples = count == 1 ? PIECE : count == 2 ? samples_of(words[1]) : 0;
    long got, done;
    int number;
    if (!samples) return 64;
    number = read_file(read_full(&file, sizeof file));
    if (number) return number;
    do {
        got = read_full(taken + 1, 3 * samples);
        number = feed(taken + 1, given, got / 3, &done);
        write_all(given, 4 * done);
    } while (!number && got == 3 * samples);
    return number ? number : got % 3 ? 17 : 0;
}
