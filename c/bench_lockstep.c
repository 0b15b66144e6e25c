/* The steps of `hla_bench lockstep FEDERATES EVENTS ROUNDS`, made from C: federates in step, each of which sends to all others
 * in each round and advances by one. The counts on standard output are those of that program; seconds and the rate go to
 * standard error. Usage: bench_lockstep FEDERATES EVENTS ROUNDS */
#define _POSIX_C_SOURCE 200809L /* clock_gettime */

#include "hla13.h"

#include <inttypes.h>
#include <stdio.h>
#include <stdlib.h>
#include <string.h>
#include <time.h>

static hla_federation f = HLA_CLOSED;
static uint64_t steps, sent, received, grants;

/* Every call is a step that is done. */
static void step(uint32_t code, const char *call)
{
    steps++;
    if (code != 0) {
        fprintf(stderr, "%s: %" PRIu32 "\n", call, code);
        exit(1);
    }
}

#define STEP(CALL, ...) step(CALL(&f, __VA_ARGS__), #CALL)

/* Ticks until a grant or nothing. */
static void visit(uint32_t federate)
{
    hla_callback callback;
    do {
        STEP(hla_tick, federate, &callback);
        received += callback.kind == HLA_RECEIVE_INTERACTION;
        grants += callback.kind == HLA_TIME_ADVANCE_GRANT;
    } while (callback.kind != HLA_NO_CALLBACK && callback.kind != HLA_TIME_ADVANCE_GRANT);
}

/* All join, are time regulating with lookahead 1 and time constrained, and send and receive class 1. */
static void begin(uint32_t federates)
{
    for (uint32_t federate = 1; federate <= federates; federate++) {
        uint8_t name = (uint8_t)('A' + federate - 1);
        uint32_t number;
        STEP(hla_join_federation_execution, &name, 1, &number);
        STEP(hla_publish_interaction_class, federate, 1);
        STEP(hla_subscribe_interaction_class, federate, 1);
        STEP(hla_enable_time_regulation, federate, 0, 1);
        visit(federate);
        STEP(hla_enable_time_constrained, federate);
        visit(federate);
    }
}

/* Every wire is carried until it is empty. */
static void carry(uint32_t federates)
{
    hla_carried carried;
    for (uint32_t from = 1; from <= federates; from++)
        for (uint32_t to = 1; to <= federates; to++)
            do {
                if (to == from)
                    break;
                STEP(hla_carry, from, to, &carried);
            } while (carried.kind != HLA_CARRIED_NOTHING);
}

/* All send, ask for the time and announce; all wires are carried; all tick until their grant. */
static void play_round(uint32_t federates, uint32_t events, uint64_t time)
{
    static const hla_value value = { 1, 8 };
    static const uint8_t bytes[8] = { '8', ' ', 'b', 'y', 't', 'e', 's', '.' };
    hla_event event;
    uint64_t promise;
    for (uint32_t federate = 1; federate <= federates; federate++) {
        for (uint32_t i = 0; i < events; i++) {
            STEP(hla_send_interaction_at, federate, 1, &value, 1, bytes, sizeof bytes, time, &event);
            sent++;
        }
        STEP(hla_time_advance_request, federate, time);
        STEP(hla_announce, federate, &promise);
    }
    carry(federates);
    for (uint32_t federate = 1; federate <= federates; federate++)
        visit(federate);
}

static double seconds(void)
{
    struct timespec now;
    clock_gettime(CLOCK_MONOTONIC, &now);
    return (double)now.tv_sec + 1e-9 * (double)now.tv_nsec;
}

int main(int argc, char **argv)
{
    static const char fed[] = "(FED (interactions (class Hit reliable timestamp (parameter Force))))";
    if (argc != 4) {
        fprintf(stderr, "usage: bench_lockstep FEDERATES EVENTS ROUNDS\n");
        return 2;
    }
    uint32_t federates = (uint32_t)strtoul(argv[1], NULL, 10), events = (uint32_t)strtoul(argv[2], NULL, 10);
    uint64_t rounds = strtoull(argv[3], NULL, 10);
    hla_fed_fault fault;
    double start = seconds();
    if (hla_open(&f, (const uint8_t *)fed, sizeof fed - 1, &fault) != 0)
        return 1;
    begin(federates);
    for (uint64_t time = 1; time <= rounds; time++)
        play_round(federates, events, time);
    double passed = seconds() - start;
    printf("steps %" PRIu64 "\nsent %" PRIu64 "\nreceived %" PRIu64 "\ngrants %" PRIu64 "\n", steps, sent, received, grants);
    fprintf(stderr, "seconds %.3f\nsteps a second %.0f\n", passed, (double)steps / passed);
    return hla_close(&f) == 0 ? 0 : 1;
}
