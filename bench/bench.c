/* Times the codes beside their peers, in turns in one process, and compares what they give byte for byte.
   usage: bench SECONDS [all|kept]   (else only segments of 4 KiB; `kept`: the C library keeps the memory that is given back) */
#define _GNU_SOURCE
#include <dlfcn.h>
#include <malloc.h>
#include <stdint.h>
#include <stdio.h>
#include <stdlib.h>
#include <string.h>
#include <time.h>
#ifdef HAVE_ISAL
#include <isa-l.h>
#endif
#ifdef HAVE_JERASURE
#include <gf_complete.h>
#include <jerasure.h>
#include <jerasure/galois.h>
#include <jerasure/reed_sol.h>
#endif

typedef uint8_t u8;

/* ---- ours: a slice is a pointer and a length */
void codes_bench_xor_into(u8 *, size_t, const u8 *, size_t);
void codes_bench_mul_add_into(u8 *, size_t, const u8 *, size_t, u8);
_Bool codes_bench_encode_xor(u8, const u8 *, size_t, size_t, _Bool, u8 *, size_t, size_t);
_Bool codes_bench_encode_rs(u8, u8, const u8 *, size_t, size_t, _Bool, u8 *, size_t, size_t);
_Bool codes_bench_recover_xor(u8, u8, const u8 *, size_t, uint32_t, _Bool, u8 *, size_t, size_t);
_Bool codes_bench_recover_rs(u8, u8, u8, const u8 *, size_t, uint32_t, _Bool, u8 *, size_t, size_t);

/* ---- plain loops */
void plain_xor_o2(u8 *, const u8 *, size_t);
void plain_xor_o3(u8 *, const u8 *, size_t);
void plain_mul_add_o2(u8 *, const u8 *, size_t, const u8 *);
void plain_mul_add_o3(u8 *, const u8 *, size_t, const u8 *);

/* ---- zfec, from the shared object of its Python package */
typedef struct fec fec;
static fec *(*zfec_new)(unsigned short, unsigned short);
static void (*zfec_encode)(const fec *, const u8 *const *, u8 *const *, const unsigned *, size_t, size_t);
static void (*zfec_decode)(const fec *, const u8 *const *, u8 *const *, const unsigned *, size_t);

static void find_zfec(void) {
#ifdef ZFEC_SO
    void *python = dlopen(ZFEC_PYTHON, RTLD_NOW | RTLD_GLOBAL);
    if (python) {
        void (*start)(int) = (void (*)(int))dlsym(python, "Py_InitializeEx");
        int (*say)(const char *) = (int (*)(const char *))dlsym(python, "PyRun_SimpleString");
        if (start && say) {
            start(0);
            say("import sys; sys.path.append('/usr/lib/python3/dist-packages'); import zfec._fec");
        }
    }
    void *h = dlopen(ZFEC_SO, RTLD_LAZY);
    if (!h) return;
    *(void **)&zfec_new = dlsym(h, "fec_new");
    *(void **)&zfec_encode = dlsym(h, "fec_encode");
    *(void **)&zfec_decode = dlsym(h, "fec_decode");
    if (!zfec_encode || !zfec_decode) zfec_new = NULL;
#endif
}

/* ---- the field */
static u8 product[256][256];
static u8 inverse[256];

static u8 mul(u8 a, u8 b) {
    u8 total = 0;
    for (; a; a >>= 1, b = b & 128 ? b << 1 ^ 0x1d : b << 1)
        if (a & 1) total ^= b;
    return total;
}

static void make_tables(void) {
    for (int a = 0; a < 256; a++)
        for (int b = 0; b < 256; b++) {
            product[a][b] = mul(a, b);
            if (product[a][b] == 1) inverse[a] = b;
        }
}

/* the factors with which m values at the points sum up to the value at the target */
static void factors(const int *points, int m, int target, u8 *out) {
    for (int j = 0; j < m; j++) {
        u8 top = 1, bottom = 1;
        for (int i = 0; i < m; i++)
            if (i != j) {
                top = product[top][target ^ points[i]];
                bottom = product[bottom][points[j] ^ points[i]];
            }
        out[j] = product[top][inverse[bottom]];
    }
}

/* ---- memory, time, faults */
static void *room(size_t len) {
    static size_t shift;
    void *p;
    if (posix_memalign(&p, 4096, len + 8192)) abort();
    shift = (shift + 704) % 4096;
    memset(p, 0, len + 8192);
    return (u8 *)p + shift / 64 * 64;
}

static void noise(u8 *p, size_t len, uint64_t x) {
    for (size_t i = 0; i < len; i++) {
        x = x * 6364136223846793005ull + 1442695040888963407ull;
        p[i] = x >> 56;
    }
}

/* AVX-512 code leaves the upper halves of its registers dirty, and what follows by SSE runs at half its speed. */
static double now(void) {
#if defined __x86_64__ && defined HAVE_AVX
    __asm__ volatile("vzeroupper" ::: "memory");
#endif
    struct timespec t;
    clock_gettime(CLOCK_THREAD_CPUTIME_ID, &t);
    return t.tv_sec * 1e9 + t.tv_nsec;
}

static double wall(void) {
    struct timespec t;
    clock_gettime(CLOCK_MONOTONIC, &t);
    return t.tv_sec + t.tv_nsec / 1e9;
}

static int faults;

static void same(const char *what, const u8 *a, const u8 *b, size_t len) {
    if (!memcmp(a, b, len)) return;
    size_t i = 0;
    while (a[i] == b[i]) i++;
    printf("DIFFERS: %s, at byte %zu of %zu: %02x and %02x\n", what, i, len, a[i], b[i]);
    faults++;
}

static void done(const char *what, _Bool ok) {
    if (ok) return;
    printf("REFUSED: %s\n", what);
    faults++;
}

/* ---- a table of contenders: the median of their rounds, beside ours */
enum { CONTENDERS = 12, ROUNDS = 64 };
static struct { const char *name; double times[ROUNDS]; int rounds; } row[CONTENDERS];
static int contenders;

static void took(const char *name, double time) {
    int i = 0;
    while (i < contenders && strcmp(row[i].name, name)) i++;
    if (i == contenders) {
        if (contenders == CONTENDERS) abort();
        row[contenders].name = name;
        row[contenders++].rounds = 0;
    }
    if (row[i].rounds < ROUNDS) row[i].times[row[i].rounds++] = time;
}

static int by_size(const void *a, const void *b) {
    double x = *(const double *)a, y = *(const double *)b;
    return (x > y) - (x < y);
}

static double median(int i) {
    qsort(row[i].times, row[i].rounds, sizeof(double), by_size);
    return row[i].times[row[i].rounds / 2];
}

/* a line for each of the first contenders, which are ours, over the others */
static void show(const char *title, double bytes, int ours) {
    for (int own = 0; own < ours; own++) {
        double time = median(own);
        printf("%s: %s %.0f ns/KiB, %d rounds; over", title, row[own].name, time / bytes * 1024, row[own].rounds);
        for (int i = ours; i < contenders; i++) printf("%s %s %.2f", i > ours ? "," : "", row[i].name, time / median(i));
        printf("\n");
    }
    fflush(stdout);
    contenders = 0;
}

#define TIME(name, reps, call)                                  \
    do {                                                        \
        double start = now();                                   \
        for (long rep = 0; rep < (reps); rep++) {               \
            call;                                               \
            __asm__ volatile("" ::: "memory");                  \
        }                                                       \
        took(name, (now() - start) / (reps));                   \
    } while (0)

/* ours makes its streams first: the time of no rounds is taken off */
#define TIME_OURS(name, reps, call_with, whole)                 \
    do {                                                        \
        double start = now();                                   \
        done(name, call_with(0, whole));                        \
        double setup = now() - start;                           \
        start = now();                                          \
        done(name, call_with(reps, whole));                     \
        took(name, (now() - start - setup) / (reps));           \
    } while (0)

/* ---- kernels */
static void compare_kernels(void) {
    static const u8 FACTORS[] = {0x00, 0x01, 0x02, 0x8e, 0xff};
    u8 src[8192], first[8192], ours[8192], plain[8192];
    noise(src, sizeof src, 1);
    noise(first, sizeof first, 2);
    for (size_t len = 0; len <= 4096; len += len < 130 ? 1 : 661) {
        memcpy(ours, first, len);
        memcpy(plain, first, len);
        codes_bench_xor_into(ours, len, src, len);
        plain_xor_o2(plain, src, len);
        same("xor_into and the plain loop", ours, plain, len);
        for (size_t f = 0; f < sizeof FACTORS; f++) {
            memcpy(ours, first, len);
            memcpy(plain, first, len);
            codes_bench_mul_add_into(ours, len, src, len, FACTORS[f]);
            plain_mul_add_o2(plain, src, len, product[FACTORS[f]]);
            same("mul_add_into and the plain loop", ours, plain, len);
        }
    }
    size_t len = 4096;
    memcpy(ours, first, len);
    codes_bench_mul_add_into(ours, len, src, len, 0x8e);
#ifdef HAVE_ISAL
    u8 table[32];
    gf_vect_mul_init(0x8e, table);
    memcpy(plain, first, len);
    gf_vect_mad(len, 1, 0, table, src, plain);
    same("mul_add_into and gf_vect_mad", ours, plain, len);
#endif
#ifdef HAVE_JERASURE
    gf_t gf;
    gf_init_easy(&gf, 8);
    memcpy(plain, first, len);
    gf.multiply_region.w32(&gf, src, plain, 0x8e, len, 1);
    same("mul_add_into and gf-complete", ours, plain, len);
#endif
}

static void kernels(size_t len, double seconds) {
    u8 *dst = room(len), *src = room(len);
    noise(dst, len, 1);
    noise(src, len, 2);
    long reps = (2 << 20) / len + 1;
    const u8 c = 0x8e;
    char title[64];
#ifdef HAVE_ISAL
    void *pair[3] = {dst, src, dst};
    u8 table[32];
    gf_vect_mul_init(c, table);
#endif
#ifdef HAVE_JERASURE
    gf_t gf;
    gf_init_easy(&gf, 8);
#endif
    double end = wall() + seconds / 2;
    for (int r = 0; r < ROUNDS && (r < 3 || wall() < end); r++) {
        TIME("xor_into", reps, codes_bench_xor_into(dst, len, src, len));
        TIME("memcpy", reps, memcpy(dst, src, len));
        TIME("gcc -O2", reps, plain_xor_o2(dst, src, len));
        TIME("gcc -O3 native", reps, plain_xor_o3(dst, src, len));
#ifdef HAVE_ISAL
        TIME("ISA-L", reps, xor_gen(3, len, pair));
        TIME("ISA-L sse", reps, xor_gen_sse(3, len, pair));
#endif
#ifdef HAVE_JERASURE
        TIME("jerasure", reps, galois_region_xor((char *)src, (char *)dst, len));
#endif
    }
    snprintf(title, sizeof title, "%zu bytes", len);
    show(title, len, 1);
    end = wall() + seconds / 2;
    for (int r = 0; r < ROUNDS && (r < 3 || wall() < end); r++) {
        TIME("mul_add_into", reps, codes_bench_mul_add_into(dst, len, src, len, c));
        TIME("memcpy", reps, memcpy(dst, src, len));
        TIME("gcc -O2 table", reps / 4 + 1, plain_mul_add_o2(dst, src, len, product[c]));
        TIME("gcc -O3 native table", reps / 4 + 1, plain_mul_add_o3(dst, src, len, product[c]));
#ifdef HAVE_ISAL
        TIME("ISA-L", reps, gf_vect_mad(len, 1, 0, table, src, dst));
        TIME("ISA-L sse", reps, gf_vect_mad_sse(len, 1, 0, table, src, dst));
#endif
#ifdef HAVE_JERASURE
        TIME("jerasure", reps, gf.multiply_region.w32(&gf, src, dst, c, len, 1));
#endif
    }
    show(title, len, 1);
}

/* ---- sets: n members, k parity segments a stripe, segments of c bytes; k is 1 for XOR */
static int has_parity(int n, int k, int stripe, int member) {
    return (member - stripe + n) % n < k;
}

/* where a member's segment of a stripe stands in its stream or its share */
static u8 *segment(u8 *data, u8 *shares, int n, int k, size_t c, int stripe, int member) {
    int parity = 0;
    for (int t = 0; t < stripe; t++) parity += has_parity(n, k, t, member);
    return has_parity(n, k, stripe, member) ? shares + (member * (size_t)k + parity) * c
                                            : data + (member * (size_t)(n - k) + stripe - parity) * c;
}

/* by member_of, or else by share_of */
static _Bool encode(int xor, int n, int k, const u8 *data, size_t c, _Bool whole, u8 *shares, size_t reps) {
    size_t len = (n - k) * c, all = n * k * c;
    return xor ? codes_bench_encode_xor(n, data, n * len, len, whole, shares, all, reps)
               : codes_bench_encode_rs(n, k, data, n * len, len, whole, shares, all, reps);
}

/* by recover, or else by recover_one of each lost member */
static _Bool recover(int xor, int n, int k, const u8 *data, size_t c, _Bool whole, u8 *back, size_t reps) {
    size_t len = (n - k) * c;
    return xor ? codes_bench_recover_xor(n, k, data, n * len, len, whole, back, n * len, reps)
               : codes_bench_recover_rs(n, k, k, data, n * len, len, whole, back, n * len, reps);
}

/* the shares by plain loops, and by ISA-L with the same factors */
static void compare_sets(int xor, int n, int k, size_t c) {
    int m = n - k;
    size_t data_len = (size_t)n * m * c, all = (size_t)n * k * c;
    u8 *data = room(data_len), *shares = room(all), *plain = room(all), *back = room(data_len);
    noise(data, data_len, n * 16 + k);
    done("member_of", encode(xor, n, k, data, c, 1, shares, 1));
    for (int s = 0; s < n; s++) {
        int places[16];
        u8 *from[16], *to[16], rows[256], tables[32 * 256];
        int count = 0, parity = 0;
        for (int i = 0; i < n; i++)
            if (!has_parity(n, k, s, i)) {
                places[count] = i;
                from[count++] = segment(data, plain, n, k, c, s, i);
            }
        for (int i = 0; i < n; i++)
            if (has_parity(n, k, s, i)) {
                if (xor) memset(rows + parity * m, 1, m);
                else factors(places, m, i, rows + parity * m);
                to[parity++] = segment(data, plain, n, k, c, s, i);
            }
#ifdef HAVE_ISAL
        ec_init_tables(m, k, rows, tables);
        ec_encode_data(c, m, k, tables, from, to);
        for (int i = 0; i < n; i++)
            if (has_parity(n, k, s, i)) {
                u8 *own = segment(data, plain, n, k, c, s, i);
                same("shares and ISA-L", own - plain + shares, own, c);
                memset(own, 0, c);
            }
#else
        (void)tables;
#endif
        for (int j = 0; j < k; j++)
            for (int i = 0; i < m; i++) plain_mul_add_o2(to[j], from[i], c, product[rows[j * m + i]]);
    }
    same("shares of member_of and the plain loops", shares, plain, all);
    memset(shares, 0, all);
    done("share_of", encode(xor, n, k, data, c, 0, shares, 1));
    same("shares of share_of and the plain loops", shares, plain, all);
    done("recover", recover(xor, n, k, data, c, 1, back, 1));
    same("streams and what recover gives", back, data, data_len);
    memset(back, 0, data_len);
    done("recover_one", recover(xor, n, k, data, c, 0, back, 1));
    same("streams and what recover_one gives", back, data, k * m * c);
    if (zfec_new) {
        fec *z = zfec_new(m, n);
        u8 *out[16];
        const u8 *in[16];
        unsigned blocks[16], known[16];
        for (int i = 0; i < m; i++) in[i] = data + i * c;
        for (int j = 0; j < k; j++) {
            blocks[j] = m + j;
            out[j] = back + j * c;
        }
        if (!xor) {
            zfec_encode(z, in, out, blocks, k, c);
            for (int i = 0; i < m; i++) {
                in[i] = i < k && i < m ? out[i] : data + i * c;
                known[i] = i < k ? m + i : i;
            }
            u8 *lost[16];
            for (int i = 0; i < k && i < m; i++) lost[i] = plain + i * c;
            zfec_decode(z, in, lost, known, c);
            if (k <= m) same("zfec with itself", plain, data, k * c);
        }
    }
}

static void sets(int xor, int n, int k, size_t c, double seconds) {
    int m = n - k, lost = k < m ? k : m;
    size_t data_len = (size_t)n * m * c, all = (size_t)n * k * c;
    u8 *data = room(data_len), *shares = room(all), *back = room(data_len), *parity = room(all);
    noise(data, data_len, 7);
    u8 *D[16][16], *P[16][16];
    for (int s = 0; s < n; s++) {
        for (int i = 0; i < m; i++) D[s][i] = data + ((size_t)s * m + i) * c;
        for (int j = 0; j < k; j++) P[s][j] = parity + ((size_t)s * k + j) * c;
    }
    long reps = (1 << 20) / (double)data_len + 1;
    char title[96];
#define ENCODE(r, whole) encode(xor, n, k, data, c, whole, shares, r)
#define RECOVER(r, whole) recover(xor, n, k, data, c, whole, back, r)
#define STRIPES(count, call) for (int t = 0; t < (count); t++) { int s = t % n; u8 **d = D[s], **p = P[s]; (void)d; (void)p; call; }
#ifdef HAVE_ISAL
    u8 *A = malloc(n * m), *B = malloc(m * m), *I = malloc(m * m), *T = malloc(32 * m * n);
    gf_gen_rs_matrix(A, n, m);
    ec_init_tables(m, k, A + m * m, T);
#endif
#ifdef HAVE_JERASURE
    int *J = xor ? NULL : reed_sol_vandermonde_coding_matrix(m, k, 8);
#endif
    fec *z = zfec_new && !xor ? zfec_new(m, n) : NULL;
    unsigned blocks[16];
    for (int j = 0; j < k; j++) blocks[j] = m + j;
    double end = wall() + seconds / 2;
    for (int r = 0; r < ROUNDS && (r < 3 || wall() < end); r++) {
        TIME_OURS("member_of", reps, ENCODE, 1);
        TIME_OURS("share_of", reps, ENCODE, 0);
        TIME("memcpy of the data", reps, memcpy(back, data, data_len));
        if (xor) {
#ifdef HAVE_ISAL
            TIME("ISA-L", reps, STRIPES(n, void *v[17]; memcpy(v, d, m * sizeof *v); v[m] = p[0]; xor_gen(m + 1, c, v)));
            TIME("ISA-L sse", reps, STRIPES(n, void *v[17]; memcpy(v, d, m * sizeof *v); v[m] = p[0]; xor_gen_sse(m + 1, c, v)));
#endif
#ifdef HAVE_JERASURE
            TIME("jerasure", reps, STRIPES(n, memcpy(p[0], d[0], c); for (int i = 1; i < m; i++) galois_region_xor((char *)d[i], (char *)p[0], c)));
#endif
            TIME("gcc -O3 native", reps, STRIPES(n, memset(p[0], 0, c); for (int i = 0; i < m; i++) plain_xor_o3(p[0], d[i], c)));
        } else {
#ifdef HAVE_ISAL
            TIME("ISA-L", reps, STRIPES(n, ec_encode_data(c, m, k, T, d, p)));
            TIME("ISA-L sse", reps, STRIPES(n, ec_encode_data_sse(c, m, k, T, d, p)));
#endif
#ifdef HAVE_JERASURE
            TIME("jerasure", reps, STRIPES(n, jerasure_matrix_encode(m, k, 8, J, (char **)d, (char **)p, c)));
#endif
            if (z) TIME("zfec", reps, STRIPES(n, zfec_encode(z, (const u8 *const *)d, p, blocks, k, c)));
        }
    }
    snprintf(title, sizeof title, "%s encode n=%d k=%d, segments of %zu bytes", xor ? "XOR" : "RS", n, k, c);
    show(title, data_len, 2);
    /* k members lost: k * m data segments are rebuilt, by the peers k (at most m) of each of so many stripes */
    int stripes = (k * m + lost - 1) / lost;
#ifdef HAVE_JERASURE
    int erased[17];
    for (int i = 0; i < lost; i++) erased[i] = i;
    erased[lost] = -1;
#endif
#define DECODE(with) memcpy(B, A + lost * m, m * m); gf_invert_matrix(B, I, m); ec_init_tables(m, lost, I, T); with(c, m, lost, T, from, d)
    end = wall() + seconds / 2;
    for (int r = 0; r < ROUNDS && (r < 3 || wall() < end); r++) {
        TIME_OURS("recover", reps, RECOVER, 1);
        TIME_OURS("recover_one", reps, RECOVER, 0);
        TIME("memcpy of what is rebuilt", reps, memcpy(back, data, (size_t)k * m * c));
        if (xor) {
#ifdef HAVE_ISAL
            TIME("ISA-L", reps, STRIPES(stripes, void *v[17]; memcpy(v, d + 1, (m - 1) * sizeof *v); v[m - 1] = p[0]; v[m] = d[0]; xor_gen(m + 1, c, v)));
            TIME("ISA-L sse", reps, STRIPES(stripes, void *v[17]; memcpy(v, d + 1, (m - 1) * sizeof *v); v[m - 1] = p[0]; v[m] = d[0]; xor_gen_sse(m + 1, c, v)));
#endif
#ifdef HAVE_JERASURE
            TIME("jerasure", reps, STRIPES(stripes, memcpy(d[0], p[0], c); for (int i = 1; i < m; i++) galois_region_xor((char *)d[i], (char *)d[0], c)));
#endif
        } else {
#ifdef HAVE_ISAL
            u8 *from[16];
#define FROM for (int i = 0; i < m; i++) from[i] = i + lost < m ? d[i + lost] : p[i + lost - m]
            TIME("ISA-L", reps, STRIPES(stripes, FROM; DECODE(ec_encode_data)));
            TIME("ISA-L sse", reps, STRIPES(stripes, FROM; DECODE(ec_encode_data_sse)));
#endif
#ifdef HAVE_JERASURE
            TIME("jerasure", reps, STRIPES(stripes, jerasure_matrix_decode(m, k, 8, J, 0, erased, (char **)d, (char **)p, c)));
#endif
            if (z) {
                const u8 *in[16];
                unsigned known[16];
#define IN for (int i = 0; i < m; i++) { in[i] = i < lost ? p[i] : d[i]; known[i] = i < lost ? m + i : i; }
                TIME("zfec", reps, STRIPES(stripes, IN; zfec_decode(z, in, d, known, c)));
            }
        }
    }
    snprintf(title, sizeof title, "%s recover n=%d k=%d, segments of %zu bytes, %d lost", xor ? "XOR" : "RS", n, k, c, k);
    show(title, (double)k * m * c, 2);
}

int main(int count, char **words) {
    double seconds = count > 1 ? atof(words[1]) : 1;
    int kept = count > 2 && !strcmp(words[2], "kept"), all = kept || (count > 2 && !strcmp(words[2], "all"));
    if (kept) {
        mallopt(M_MMAP_MAX, 0);
        mallopt(M_TRIM_THRESHOLD, 1 << 30);
        mallopt(M_TOP_PAD, 64 << 20);
    }
    static const struct { int xor, n, k; } SETS[] = {{1, 4, 1}, {1, 8, 1}, {0, 4, 2}, {0, 8, 2}, {0, 16, 4}};
    int set_count = sizeof SETS / sizeof *SETS;
    make_tables();
    find_zfec();
    compare_kernels();
    for (int i = 0; i < set_count; i++) compare_sets(SETS[i].xor, SETS[i].n, SETS[i].k, 1000);
    double share = seconds / (set_count + 1) / (all ? 2 : 1);
    for (size_t c = 4096; c <= (all ? 1 << 20 : 4096); c <<= 8) {
        kernels(c, share);
        for (int i = 0; i < set_count; i++) sets(SETS[i].xor, SETS[i].n, SETS[i].k, c, share);
    }
    if (faults) printf("%d results differ\n", faults);
    else printf("all results agree\n");
    return faults != 0;
}
