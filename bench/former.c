/* The former check: Clenshaw's recurrence in double at 500 equidistant instants. */
#include "former.h"

#include "ferruntzo.h"

#include <math.h>

#define UNIT ((double)FERRUNTZO_S)
#define COEFFICIENTS FERRUNTZO_COEFFICIENTS
#define BLOCK_BYTES FERRUNTZO_BLOCK_BYTES
#define RESULTS FERRUNTZO_MAX_RESULTS

static double instant(int i) { return -1.0 + 2.0 * i / (FORMER_INSTANTS - 1); }

static double clenshaw(const double *a, int degree, double x)
{
    double next = 0, after = 0;
    for (int k = degree; k > 0; k--) {
        double here = a[k] + 2 * x * next - after;
        after = next;
        next = here;
    }
    return a[0] + x * next - after;
}

static void to_values(const int32_t *area, double *a)
{
    for (int k = 0; k < COEFFICIENTS; k++)
        a[k] = area[1 + k] / UNIT;
}

double former_quotient(const int32_t *f, const int32_t *g, const int32_t *h)
{
    double a[COEFFICIENTS], b[COEFFICIENTS], c[COEFFICIENTS], largest = 0;
    to_values(f, a);
    to_values(g, b);
    to_values(h, c);
    for (int i = 0; i < FORMER_INSTANTS; i++) {
        double x = instant(i);
        double off = fabs(clenshaw(a, f[0], x) / clenshaw(b, g[0], x) - clenshaw(c, h[0], x));
        if (off > largest)
            largest = off;
    }
    return largest * UNIT;
}

double former_root(const int32_t *f, const int32_t *h)
{
    double a[COEFFICIENTS], c[COEFFICIENTS], largest = 0;
    to_values(f, a);
    to_values(h, c);
    for (int i = 0; i < FORMER_INSTANTS; i++) {
        double x = instant(i);
        double off = fabs(sqrt(clenshaw(a, f[0], x)) - clenshaw(c, h[0], x));
        if (off > largest)
            largest = off;
    }
    return largest * UNIT;
}

/* The values of a block at all instants. */
static void evaluate_block(const uint8_t *p, double *values)
{
    double a[COEFFICIENTS];
    for (int k = 0; k < COEFFICIENTS; k++) {
        const uint8_t *q = p + 1 + 4 * k;
        uint32_t bits = q[0] | (uint32_t)q[1] << 8 | (uint32_t)q[2] << 16 | (uint32_t)q[3] << 24;
        a[k] = (int32_t)bits / UNIT;
    }
    for (int i = 0; i < FORMER_INSTANTS; i++)
        values[i] = clenshaw(a, p[0], instant(i));
}

double former_job(const uint8_t *job, size_t job_len)
{
    static double values[RESULTS][FORMER_INSTANTS];
    double largest = 0;
    int count = 0;
    for (size_t at = 2; at < job_len && job[at] != 0x00 && count < RESULTS; count++) {
        uint8_t byte = job[at];
        const uint8_t *operands = job + at + 1;
        double *out = values[count];
        if (byte == 0x10) {
            evaluate_block(operands, out);
            at += 1 + BLOCK_BYTES + 4;
            continue;
        }
        int root = byte == 0x21 || byte == 0x22;
        const double *a = values[operands[0]], *b = values[operands[root ? 0 : 1]];
        if (byte == 0x20 || root) {
            size_t names = byte == 0x20 ? 2 : 1;
            evaluate_block(operands + names, out);
            for (int i = 0; i < FORMER_INSTANTS; i++) {
                double off = fabs((byte == 0x20 ? a[i] / b[i] : sqrt(a[i])) - out[i]);
                if (off > largest)
                    largest = off;
            }
            at += 1 + names + 2 * BLOCK_BYTES;
            continue;
        }
        for (int i = 0; i < FORMER_INSTANTS; i++)
            out[i] = byte == 0x11 ? a[i] + b[i] : byte == 0x12 ? a[i] - b[i] : a[i] * b[i];
        at += byte == 0x13 ? 4 : 3;
    }
    return largest * UNIT;
}
