/* Times tag and keystream of 4,096 octets against a plain C implementation. Run by hand: c/bench */
#include <stdio.h>
#include <time.h>

#include "mulgawo.h"
#include "reference.h"

enum { LENGTH = 4096, TURNS = 2000 };

static uint8_t key[16] = {1, 2, 3}, counter[16], data[LENGTH], output[LENGTH], workspace[256];

static double now(void)
{
    struct timespec t;
    clock_gettime(CLOCK_MONOTONIC, &t);
    return (double)t.tv_sec + (double)t.tv_nsec / 1e9;
}

static void ours_tag(void) { mulgawo_tag(key, 16, data, LENGTH, workspace, 256, output, 12); }
static void plain_tag(void) { reference_tag(key, data, LENGTH, output); }
static void ours_stream(void) { mulgawo_keystream(key, 16, counter, 16, data, LENGTH, workspace, 256, output, LENGTH); }
static void plain_stream(void) { reference_keystream(key, counter, data, LENGTH, output); }

/* microseconds a call, the best of five runs */
static double timed(void (*call)(void))
{
    double best = 1e9;
    for (int run = 0; run < 5; run++) {
        double start = now();
        for (int i = 0; i < TURNS; i++) {
            data[i % LENGTH] ^= output[0];
            call();
        }
        double took = (now() - start) / TURNS * 1e6;
        if (took < best)
            best = took;
    }
    return best;
}

static void compare(const char *name, void (*ours)(void), void (*plain)(void))
{
    double a = timed(ours), b = timed(plain);
    printf("%-9s 4,096 octets: %7.1f us, plain C %7.1f us, ratio %.2f\n", name, a, b, a / b);
}

int main(void)
{
    compare("tag", ours_tag, plain_tag);
    compare("keystream", ours_stream, plain_stream);
    return 0;
}
