/* Refuses each allocation in turn, over a program that opens, joins, registers, sends, ticks and resigns. The call at
 * which it is refused answers HLA_OUT_OF_MEMORY, changes nothing, and is done when it is made again; or it needs the
 * memory only to keep it, and is done at once. Link with -Wl,--wrap=malloc -Wl,--wrap=realloc. Usage: memory FED
 *
 * It prints how many were refused, and how many faults there were: refused calls of another number, calls that were
 * refused again, and runs that ended otherwise than the one in which nothing is refused. That nothing leaks the
 * sanitizer says. */
#include "hla13.h"

#include <inttypes.h>
#include <stdio.h>
#include <stdlib.h>
#include <string.h>

void *__real_malloc(size_t size);
void *__real_realloc(void *at, size_t size);
void *__wrap_malloc(size_t size);
void *__wrap_realloc(void *at, size_t size);

static long left;    /* the allocation that is refused, counted down; 0 for none */
static int refused;  /* whether it was */
static long answered, kept, faults;
static hla_federation f;
static uint64_t told; /* a sum of all that was written back */

static int refuses(void)
{
    if (left == 0 || --left > 0)
        return 0;
    refused = 1;
    return 1;
}

void *__wrap_malloc(size_t size)
{
    return refuses() ? NULL : __real_malloc(size);
}

void *__wrap_realloc(void *at, size_t size)
{
    return refuses() ? NULL : __real_realloc(at, size);
}

static const uint8_t *octets(const char *text)
{
    return (const uint8_t *)text;
}

static void count(uint64_t number)
{
    told = told * 31 + number;
}

/* Counts a fault where a call is not done, and says which it was. */
static void need(uint32_t code, const char *call)
{
    if (code != 0) {
        faults++;
        printf("%s answers %" PRIu32 "\n", call, code);
    }
}

/* Makes a call, and makes it again where it was refused for want of memory. */
#define DO(CALL)                                                                                                       \
    do {                                                                                                               \
        int before = refused;                                                                                          \
        uint32_t code = CALL;                                                                                          \
        if (code == HLA_OUT_OF_MEMORY && refused && !before) {                                                         \
            answered++;                                                                                                \
            code = CALL;                                                                                               \
        } else if (refused && !before)                                                                                 \
            kept++;                                                                                                    \
        need(code, #CALL);                                                                                             \
    } while (0)

static void carry(uint32_t from, uint32_t to)
{
    hla_carried carried = { 0, 0, 0, 0, 0 };
    do {
        DO(hla_carry(&f, from, to, &carried));
        count(carried.kind + carried.serial + carried.bound + carried.object);
    } while (carried.kind != HLA_CARRIED_NOTHING);
}

static void tick(uint32_t federate)
{
    hla_callback callback = { 0, 0, 0, 0, 0, 0, 0, 0, 0, 0 };
    hla_value values[4];
    uint8_t bytes[64];
    size_t used = 0;
    do {
        DO(hla_tick(&f, federate, &callback));
        DO(hla_callback_values(&f, values, 4, bytes, sizeof bytes));
        for (uint64_t i = 0; i < callback.values; i++)
            count(values[i].handle + values[i].length);
        DO(hla_callback_name(&f, bytes, sizeof bytes, &used));
        count(callback.kind + callback.object + callback.class_ + callback.stamp + callback.time + used);
    } while (callback.kind != HLA_NO_CALLBACK);
}

/* Everybody announces, every wire is carried, and everybody ticks. */
static void round_of(uint32_t a, uint32_t b)
{
    uint64_t promise = 0;
    DO(hla_announce(&f, a, &promise));
    count(promise);
    DO(hla_announce(&f, b, &promise));
    count(promise);
    carry(a, b);
    carry(b, a);
    tick(a);
    tick(b);
}

struct numbers {
    uint32_t a, b, car, pos, hit, force;
};

static void look_up(struct numbers *n)
{
    uint8_t name[64];
    size_t used = 0;
    DO(hla_get_object_class_handle(&f, n->a, octets("Car"), 3, &n->car));
    DO(hla_get_attribute_handle(&f, n->a, octets("Pos"), 3, n->car, &n->pos));
    DO(hla_get_interaction_class_handle(&f, n->a, octets("Hit"), 3, &n->hit));
    DO(hla_get_parameter_handle(&f, n->a, octets("Force"), 5, n->hit, &n->force));
    DO(hla_object_class_name(&f, n->car, name, sizeof name, &used));
    DO(hla_attribute_name(&f, n->pos, name, sizeof name, &used));
    DO(hla_interaction_class_name(&f, n->hit, name, sizeof name, &used));
    DO(hla_parameter_name(&f, n->force, name, sizeof name, &used));
}

static void declare(const struct numbers *n)
{
    DO(hla_publish_object_class(&f, n->a, n->car, &n->pos, 1));
    DO(hla_subscribe_object_class_attributes(&f, n->b, n->car, &n->pos, 1));
    DO(hla_publish_interaction_class(&f, n->a, n->hit));
    DO(hla_publish_interaction_class(&f, n->b, n->hit));
    DO(hla_subscribe_interaction_class(&f, n->b, n->hit));
    DO(hla_change_interaction_order_type(&f, n->b, n->hit, HLA_ORDER_RECEIVE));
    DO(hla_enable_time_regulation(&f, n->a, 0, 1));
    DO(hla_enable_time_constrained(&f, n->b));
    DO(hla_register_federation_synchronization_point(&f, n->a, octets("ready"), 5));
    round_of(n->a, n->b);
    DO(hla_synchronization_point_achieved(&f, n->a, octets("ready"), 5));
    DO(hla_synchronization_point_achieved(&f, n->b, octets("ready"), 5));
    round_of(n->a, n->b);
}

static void exchange(const struct numbers *n)
{
    uint32_t object = 0, named = 0;
    hla_value value[2] = { { n->pos, 3 }, { n->pos, 2 } };
    hla_value force = { n->force, 4 };
    hla_event event = { 0, 0 };
    DO(hla_register_object_instance(&f, n->a, n->car, &object));
    DO(hla_register_named_object_instance(&f, n->a, n->car, octets("red"), 3, &named));
    DO(hla_get_object_instance_handle(&f, n->a, octets("red"), 3, &named));
    DO(hla_change_attribute_order_type(&f, n->a, named, &n->pos, 1, HLA_ORDER_RECEIVE));
    for (uint64_t time = 1; time <= 4; time++) {
        DO(hla_update_attribute_values(&f, n->a, named, value, 2, octets("abcde"), 5, &event));
        DO(hla_update_attribute_values_at(&f, n->a, object, value, 2, octets("abcde"), 5, time + 2, &event));
        DO(hla_send_interaction(&f, n->a, n->hit, &force, 1, octets("hard"), 4, &event));
        DO(hla_send_interaction_at(&f, n->a, n->hit, &force, 1, octets("hard"), 4, time + 1, &event));
        count(event.sender + event.serial);
        if (time == 3)
            DO(hla_retract(&f, n->a, event.sender, event.serial));
        DO(hla_time_advance_request(&f, n->a, time));
        DO(hla_next_event_request(&f, n->b, time));
        round_of(n->a, n->b);
    }
    DO(hla_delete_object_instance_at(&f, n->a, object, 9));
    DO(hla_delete_object_instance(&f, n->a, named));
    DO(hla_register_object_instance(&f, n->a, n->car, &object));
}

/* A whole life of a federation; answers the sum of all that was written back. */
static uint64_t play(const uint8_t *fed, size_t length)
{
    struct numbers n = { 0, 0, 0, 0, 0, 0 };
    hla_fed_fault fault = { 0, 0 };
    told = 0;
    DO(hla_open(&f, fed, length, &fault));
    DO(hla_join_federation_execution(&f, octets("A"), 1, &n.a));
    DO(hla_join_federation_execution(&f, octets("B"), 1, &n.b));
    look_up(&n);
    declare(&n);
    exchange(&n);
    DO(hla_resign_federation_execution(&f, n.a, HLA_DELETE_OBJECTS));
    DO(hla_flush_queue_request(&f, n.b, 20));
    carry(n.a, n.b);
    tick(n.b);
    DO(hla_resign_federation_execution(&f, n.b, HLA_NO_ACTION));
    DO(hla_close(&f));
    return told;
}

int main(int argc, char **argv)
{
    static uint8_t fed[1 << 20];
    FILE *file = argc == 2 ? fopen(argv[1], "rb") : NULL;
    if (file == NULL) {
        fprintf(stderr, "usage: memory FED\n");
        return 2;
    }
    size_t length = fread(fed, 1, sizeof fed, file);
    fclose(file);
    uint64_t whole = play(fed, length);
    long turn = 0;
    do {
        refused = 0;
        left = ++turn;
        if (play(fed, length) != whole) {
            faults++;
            printf("allocation %ld: the run is another\n", turn);
        }
    } while (refused && faults < 20);
    printf("%ld allocations refused in turn: %ld calls answered 38 and were done when made again, %ld were done\n",
           turn - 1, answered, kept);
    printf("%ld faults\n", faults);
    return faults == 0 ? 0 : 1;
}
