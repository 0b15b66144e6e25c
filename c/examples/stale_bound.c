/* An old null message holds a federate up until a newer one comes: examples/stale_bound.script, call by call. It
 * prints the transcript that `hlaplay play` prints of that script. Usage: stale_bound FED */
#include "../hla13.h"

#include <inttypes.h>
#include <stdio.h>
#include <stdlib.h>
#include <string.h>

static hla_federation federation = HLA_CLOSED;
static unsigned line;

static const uint8_t *octets(const char *text)
{
    return (const uint8_t *)text;
}

/* Ends the program where a call that prints no line is refused. */
static void need(uint32_t code, const char *call)
{
    if (code != 0) {
        fprintf(stderr, "%s: %" PRIu32 "\n", call, code);
        exit(1);
    }
}

/* Begins a line with how a call ended; answers whether it was done. */
static int begin(uint32_t code)
{
    uint8_t name[64];
    size_t used = 0;
    printf("%u %s", ++line, code == 0 ? "ok" : "error");
    if (code == 0)
        return 1;
    if (hla_fault_name(code, name, sizeof name, &used) != 0)
        used = 0;
    printf(" %" PRIu32 " %.*s\n", code, (int)used, (const char *)name);
    return 0;
}

static void done(uint32_t code)
{
    if (begin(code))
        printf("\n");
}

static uint32_t join(const char *name)
{
    uint32_t federate = 0;
    if (begin(hla_join_federation_execution(&federation, octets(name), strlen(name), &federate)))
        printf(" %" PRIu32 "\n", federate);
    return federate;
}

static void carry(uint32_t from, uint32_t to)
{
    hla_carried carried;
    if (!begin(hla_carry(&federation, from, to, &carried)))
        return;
    if (carried.kind == HLA_CARRIED_NULL_MESSAGE)
        printf(" null %" PRIu64 "\n", carried.bound);
    else if (carried.kind == HLA_CARRIED_EVENT)
        printf(" event %" PRIu32 ".%" PRIu64 "\n", carried.sender, carried.serial);
    else
        printf(" %s\n", carried.kind == HLA_CARRIED_NOTHING ? "none" : "?");
}

static void announce(uint32_t federate)
{
    uint64_t promise = 0;
    if (!begin(hla_announce(&federation, federate, &promise)))
        return;
    if (promise == 0)
        printf(" none\n");
    else
        printf(" %" PRIu64 "\n", promise);
}

/* The interaction that the last callback is, with its one parameter. */
static void print_interaction(const hla_callback *callback)
{
    uint8_t class_name[256], parameter[256], bytes[HLA_MAX_VALUE];
    size_t class_length = 0, parameter_length = 0;
    hla_value value = { 0, 0 };
    need(hla_interaction_class_name(&federation, callback->class_, class_name, sizeof class_name, &class_length),
         "hla_interaction_class_name");
    need(hla_callback_values(&federation, &value, 1, bytes, sizeof bytes), "hla_callback_values");
    need(hla_parameter_name(&federation, value.handle, parameter, sizeof parameter, &parameter_length),
         "hla_parameter_name");
    printf(" receive %.*s %.*s=%.*s", (int)class_length, (const char *)class_name, (int)parameter_length,
           (const char *)parameter, (int)value.length, (const char *)bytes);
    if (callback->delivery == HLA_DELIVERY_TIME_STAMP)
        printf(" TSO %" PRIu64 " %" PRIu32 ".%" PRIu64 "\n", callback->stamp, callback->sender, callback->serial);
    else
        printf(" RO\n");
}

static void tick(uint32_t federate)
{
    hla_callback callback;
    if (!begin(hla_tick(&federation, federate, &callback)))
        return;
    switch (callback.kind) {
    case HLA_NO_CALLBACK:
        printf(" nothing\n");
        break;
    case HLA_RECEIVE_INTERACTION:
        print_interaction(&callback);
        break;
    case HLA_TIME_REGULATION_ENABLED:
        printf(" regulationEnabled %" PRIu64 "\n", callback.time);
        break;
    case HLA_TIME_CONSTRAINED_ENABLED:
        printf(" constrainedEnabled %" PRIu64 "\n", callback.time);
        break;
    case HLA_TIME_ADVANCE_GRANT:
        printf(" grant %" PRIu64 "\n", callback.time);
        break;
    default:
        printf(" callback %" PRIu32 "\n", callback.kind);
    }
}

static void send_hit(uint32_t federate, uint32_t hit, uint32_t force, const char *value, uint64_t stamp)
{
    hla_value head = { force, strlen(value) };
    hla_event event = { 0, 0 };
    if (begin(hla_send_interaction_at(&federation, federate, hit, &head, 1, octets(value), strlen(value), stamp,
                                      &event)))
        printf(" %" PRIu32 ".%" PRIu64 "\n", event.sender, event.serial);
}

static void open_file(const char *name)
{
    static uint8_t fed[1 << 20];
    hla_fed_fault fault = { 0, 0 };
    FILE *file = fopen(name, "rb");
    if (file == NULL) {
        fprintf(stderr, "cannot read %s\n", name);
        exit(1);
    }
    size_t length = fread(fed, 1, sizeof fed, file);
    fclose(file);
    done(hla_open(&federation, fed, length, &fault));
}

/* A sends; B receives. Both regulate and are constrained. */
static void set_up(uint32_t a, uint32_t b, uint32_t hit)
{
    done(hla_publish_interaction_class(&federation, a, hit));
    done(hla_subscribe_interaction_class(&federation, b, hit));
    done(hla_enable_time_regulation(&federation, a, 0, 1));
    tick(a);
    carry(a, b);
    done(hla_enable_time_regulation(&federation, b, 0, 2));
    tick(b);
    carry(b, a);
    done(hla_enable_time_constrained(&federation, a));
    tick(a);
    done(hla_enable_time_constrained(&federation, b));
    tick(b);
}

static void advance(uint32_t a, uint32_t b, uint32_t hit, uint32_t force)
{
    done(hla_time_advance_request(&federation, a, 5));
    done(hla_next_event_request(&federation, b, 10));
    announce(a);
    carry(a, b);
    announce(b);
    carry(b, a);
    tick(a);
    send_hit(a, hit, force, "7", 6);
    carry(a, b);
    tick(b); /* B knows that A sends nothing below 6, and the hit has the stamp 6: another one might still come */
    done(hla_time_advance_request(&federation, a, 7));
    announce(a);
    carry(a, b);
    tick(b);
    tick(b);
}

int main(int argc, char **argv)
{
    if (argc != 2) {
        fprintf(stderr, "usage: stale_bound FED\n");
        return 2;
    }
    open_file(argv[1]);
    uint32_t a = join("A"), b = join("B"), hit = 0, force = 0;
    need(hla_get_interaction_class_handle(&federation, a, octets("Hit"), 3, &hit), "hla_get_interaction_class_handle");
    need(hla_get_parameter_handle(&federation, a, octets("Force"), 5, hit, &force), "hla_get_parameter_handle");
    set_up(a, b, hit);
    advance(a, b, hit, force);
    need(hla_close(&federation), "hla_close");
    return 0;
}
