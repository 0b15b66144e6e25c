/* The federate in C of the mixed federation. */
#include "mixed.h"

#include <inttypes.h>
#include <stdio.h>
#include <string.h>

static hla_federation *federation;
static mixed_say say;
static uint32_t self, hit, force;
static uint64_t now;

static const uint8_t *octets(const char *text)
{
    return (const uint8_t *)text;
}

/* What arrives on the wires to this federate: numbers are given from 1 on without a gap. */
static uint32_t carry(void)
{
    for (uint32_t from = 1;; from++) {
        hla_carried carried = { 0, 0, 0, 0, 0 };
        uint32_t code = 0;
        if (from == self)
            continue;
        do
            code = hla_carry(federation, from, self, &carried);
        while (code == 0 && carried.kind != HLA_CARRIED_NOTHING);
        if (code != 0)
            return code == HLA_FEDERATE_NOT_EXECUTION_MEMBER ? 0 : code;
    }
}

static uint32_t hear(const hla_callback *callback)
{
    char line[256] = "C: ?";
    uint8_t bytes[HLA_MAX_VALUE];
    hla_value value = { 0, 0 };
    if (callback->kind == HLA_NO_CALLBACK)
        return 0;
    if (callback->kind == HLA_TIME_REGULATION_ENABLED)
        snprintf(line, sizeof line, "C: regulating at %" PRIu64, callback->time);
    if (callback->kind == HLA_TIME_CONSTRAINED_ENABLED)
        snprintf(line, sizeof line, "C: constrained at %" PRIu64, callback->time);
    if (callback->kind == HLA_TIME_ADVANCE_GRANT) {
        now = callback->time;
        snprintf(line, sizeof line, "C: granted %" PRIu64, callback->time);
    }
    if (callback->kind == HLA_RECEIVE_INTERACTION) {
        uint32_t code = hla_callback_values(federation, &value, 1, bytes, sizeof bytes);
        if (code != 0)
            return code;
        snprintf(line, sizeof line, "C: hit by %.*s at %" PRIu64, (int)value.length, (const char *)bytes,
                 callback->stamp);
    }
    say(line);
    return 0;
}

int mixed_c_tick(void)
{
    hla_callback callback;
    uint64_t promise = 0;
    uint32_t code = carry();
    if (code == 0)
        code = hla_announce(federation, self, &promise);
    if (code == 0)
        code = hla_tick(federation, self, &callback);
    if (code == 0)
        code = hear(&callback);
    return (int)code;
}

int mixed_c_start(hla_federation *shared, mixed_say how)
{
    federation = shared;
    say = how;
    uint32_t code = hla_join_federation_execution(federation, octets("C"), 1, &self);
    if (code == 0)
        code = hla_get_interaction_class_handle(federation, self, octets("Hit"), 3, &hit);
    if (code == 0)
        code = hla_get_parameter_handle(federation, self, octets("Force"), 5, hit, &force);
    if (code == 0)
        code = hla_publish_interaction_class(federation, self, hit);
    if (code == 0)
        code = hla_subscribe_interaction_class(federation, self, hit);
    if (code == 0)
        code = hla_enable_time_constrained(federation, self);
    if (code == 0)
        code = hla_enable_time_regulation(federation, self, 0, 1);
    return (int)code;
}

int mixed_c_hit(void)
{
    hla_value value = { force, 1 };
    hla_event event = { 0, 0 };
    uint64_t promise = 0;
    uint32_t code = hla_send_interaction_at(federation, self, hit, &value, 1, octets("C"), 1, now + 1, &event);
    if (code == 0)
        code = hla_time_advance_request(federation, self, now + 1);
    if (code == 0)
        code = hla_announce(federation, self, &promise);
    return (int)code;
}

uint64_t mixed_c_now(void)
{
    return now;
}

int mixed_c_leave(void)
{
    return (int)hla_resign_federation_execution(federation, self, HLA_NO_ACTION);
}
