/* How fast the calls are: a send, a carry, a tick and its values, between two federates of one thread, without a lock.
 * Rates go to standard error and counts, which are the same on each machine, to standard output.
 * Usage: bench FED [ROUNDS] */
#define _POSIX_C_SOURCE 200809L /* clock_gettime */

#include "hla13.h"

#include <inttypes.h>
#include <stdio.h>
#include <stdlib.h>
#include <string.h>
#include <time.h>

static hla_federation f = HLA_CLOSED;
static uint32_t a, b, hit, force;

static const uint8_t *octets(const char *text)
{
    return (const uint8_t *)text;
}

static void need(uint32_t code, const char *call)
{
    if (code != 0) {
        fprintf(stderr, "%s: %" PRIu32 "\n", call, code);
        exit(1);
    }
}

static double seconds(void)
{
    struct timespec now;
    clock_gettime(CLOCK_MONOTONIC, &now);
    return (double)now.tv_sec + 1e-9 * (double)now.tv_nsec;
}

static void rate(const char *what, uint64_t rounds, double passed)
{
    fprintf(stderr, "%s: %.0f a second, %.1f nanoseconds each\n", what, (double)rounds / passed,
            1e9 * passed / (double)rounds);
}

static void set_up(const char *name)
{
    static uint8_t fed[1 << 20];
    hla_fed_fault fault = { 0, 0 };
    FILE *file = fopen(name, "rb");
    if (file == NULL) {
        fprintf(stderr, "cannot read %s\n", name);
        exit(1);
    }
    size_t length = fread(fed, 1, sizeof fed, file);
    fclose(file);
    need(hla_open(&f, fed, length, &fault), "hla_open");
    need(hla_join_federation_execution(&f, octets("A"), 1, &a), "hla_join_federation_execution");
    need(hla_join_federation_execution(&f, octets("B"), 1, &b), "hla_join_federation_execution");
    need(hla_get_interaction_class_handle(&f, a, octets("Hit"), 3, &hit), "hla_get_interaction_class_handle");
    need(hla_get_parameter_handle(&f, a, octets("Force"), 5, hit, &force), "hla_get_parameter_handle");
    need(hla_publish_interaction_class(&f, a, hit), "hla_publish_interaction_class");
    need(hla_subscribe_interaction_class(&f, b, hit), "hla_subscribe_interaction_class");
}

/* Sends in receive order: each is given at the next tick, and its values are taken where they are wanted. Answers the
 * bytes that came. */
static uint64_t exchange(uint64_t rounds, int wants_values)
{
    hla_value value = { force, 8 }, got = { 0, 0 };
    uint8_t bytes[8], back[8];
    hla_event event;
    hla_carried carried;
    hla_callback callback;
    uint64_t came = 0;
    for (uint64_t i = 0; i < rounds; i++) {
        memcpy(bytes, &i, sizeof bytes);
        need(hla_send_interaction(&f, a, hit, &value, 1, bytes, sizeof bytes, &event), "hla_send_interaction");
        need(hla_carry(&f, a, b, &carried), "hla_carry");
        need(hla_tick(&f, b, &callback), "hla_tick");
        came += callback.bytes;
        if (!wants_values)
            continue;
        need(hla_callback_values(&f, &got, 1, back, sizeof back), "hla_callback_values");
        if (got.length != sizeof bytes || memcmp(bytes, back, sizeof bytes) != 0)
            need(HLA_NO_SUCH_NUMBER, "another interaction came than was sent");
    }
    return came;
}

static uint64_t lock_step(uint64_t rounds)
{
    uint64_t grants = 0, promise = 0;
    hla_carried carried;
    hla_callback callback;
    need(hla_enable_time_regulation(&f, a, 0, 1), "hla_enable_time_regulation");
    need(hla_tick(&f, a, &callback), "hla_tick");
    need(hla_carry(&f, a, b, &carried), "hla_carry");
    need(hla_enable_time_constrained(&f, b), "hla_enable_time_constrained");
    need(hla_tick(&f, b, &callback), "hla_tick");
    for (uint64_t time = 1; time <= rounds; time++) {
        need(hla_time_advance_request(&f, a, time), "hla_time_advance_request");
        need(hla_time_advance_request(&f, b, time), "hla_time_advance_request");
        need(hla_announce(&f, a, &promise), "hla_announce");
        need(hla_carry(&f, a, b, &carried), "hla_carry");
        need(hla_tick(&f, a, &callback), "hla_tick");
        grants += callback.kind == HLA_TIME_ADVANCE_GRANT;
        need(hla_tick(&f, b, &callback), "hla_tick");
        grants += callback.kind == HLA_TIME_ADVANCE_GRANT;
    }
    return grants;
}

int main(int argc, char **argv)
{
    uint64_t rounds = argc == 3 ? strtoull(argv[2], NULL, 10) : 3000000;
    if (argc < 2 || argc > 3 || rounds == 0) {
        fprintf(stderr, "usage: bench FED [ROUNDS]\n");
        return 2;
    }
    set_up(argv[1]);
    double start = seconds();
    uint64_t came = exchange(rounds, 0);
    rate("a send, a carry and a tick", rounds, seconds() - start);
    start = seconds();
    came += exchange(rounds, 1);
    rate("a send, a carry, a tick and its values", rounds, seconds() - start);
    start = seconds();
    uint64_t grants = lock_step(rounds);
    rate("two requests, an announcement, a carry and two ticks", rounds, seconds() - start);
    start = seconds();
    for (uint64_t i = 0, time = 0; i < rounds; i++)
        need(hla_query_federate_time(&f, b, &time), "hla_query_federate_time");
    rate("a query of the federate's time", rounds, seconds() - start);
    printf("%" PRIu64 " rounds each, %" PRIu64 " bytes, %" PRIu64 " grants\n", rounds, came, grants);
    need(hla_close(&f), "hla_close");
    return 0;
}
