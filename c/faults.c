/* What a test of the interface itself refuses: calls on a federation that is not open, too little room, numbers that
 * stand for nothing, lengths that do not add up; and that nothing is written then. It prints each check that fails,
 * and how many there were. Usage: faults FED */
#include "hla13.h"

#include <inttypes.h>
#include <stdio.h>
#include <string.h>

static hla_federation f = HLA_CLOSED;
static uint32_t a, b, car, pos, hit, force;
static unsigned checks, failures;

static const uint8_t *octets(const char *text)
{
    return (const uint8_t *)text;
}

static void check(uint32_t code, uint32_t expected, const char *call, int line)
{
    checks++;
    if (code == expected)
        return;
    failures++;
    printf("line %d: %s answers %" PRIu32 " and not %" PRIu32 "\n", line, call, code, expected);
}
#define IS(CALL, CODE) check((CALL), (CODE), #CALL, __LINE__)

/* Each call on a federation that is not open. */
static void closed_execution(void)
{
    uint32_t n = 7;
    uint64_t t = 7;
    size_t used = 7;
    uint8_t bytes[8] = "abcdefg";
    hla_value value = { 7, 7 };
    hla_carried carried = { 7, 7, 7, 7, 7 };
    hla_callback callback = { 7, 7, 7, 7, 7, 7, 7, 7, 7, 7 };
    IS(hla_close(&f), 101);
    IS(hla_join_federation_execution(&f, bytes, 1, &n), 101);
    IS(hla_resign_federation_execution(&f, 1, HLA_NO_ACTION), 101);
    IS(hla_carry(&f, 1, 2, &carried), 101);
    IS(hla_announce(&f, 1, &t), 101);
    IS(hla_tick(&f, 1, &callback), 101);
    IS(hla_callback_values(&f, &value, 1, bytes, sizeof bytes), 101);
    IS(hla_callback_name(&f, bytes, sizeof bytes, &used), 101);
    IS(hla_object_class_name(&f, 1, bytes, sizeof bytes, &used), 101);
    IS(hla_interaction_class_name(&f, 1, bytes, sizeof bytes, &used), 101);
    IS(hla_attribute_name(&f, 1, bytes, sizeof bytes, &used), 101);
    IS(hla_parameter_name(&f, 1, bytes, sizeof bytes, &used), 101);
    IS(hla_register_federation_synchronization_point(&f, 1, bytes, 1), 101);
    IS(hla_synchronization_point_achieved(&f, 1, bytes, 1), 101);
    IS(n == 7 && t == 7 && used == 7 && value.handle == 7 && carried.kind == 7 && callback.kind == 7, 1);
    IS(memcmp(bytes, "abcdefg", sizeof bytes) == 0, 1);
}

static void closed_declaration_and_objects(void)
{
    const uint8_t bytes[1] = { 'a' };
    const uint32_t one = 1;
    const hla_value value = { 1, 1 };
    uint32_t n = 7;
    hla_event event = { 7, 7 };
    IS(hla_publish_object_class(&f, 1, 1, &one, 1), 101);
    IS(hla_unpublish_object_class(&f, 1, 1), 101);
    IS(hla_subscribe_object_class_attributes(&f, 1, 1, &one, 1), 101);
    IS(hla_unsubscribe_object_class(&f, 1, 1), 101);
    IS(hla_publish_interaction_class(&f, 1, 1), 101);
    IS(hla_unpublish_interaction_class(&f, 1, 1), 101);
    IS(hla_subscribe_interaction_class(&f, 1, 1), 101);
    IS(hla_unsubscribe_interaction_class(&f, 1, 1), 101);
    IS(hla_register_object_instance(&f, 1, 1, &n), 101);
    IS(hla_register_named_object_instance(&f, 1, 1, bytes, 1, &n), 101);
    IS(hla_update_attribute_values(&f, 1, 1, &value, 1, bytes, 1, &event), 101);
    IS(hla_update_attribute_values_at(&f, 1, 1, &value, 1, bytes, 1, 1, &event), 101);
    IS(hla_send_interaction(&f, 1, 1, &value, 1, bytes, 1, &event), 101);
    IS(hla_send_interaction_at(&f, 1, 1, &value, 1, bytes, 1, 1, &event), 101);
    IS(hla_delete_object_instance(&f, 1, 1), 101);
    IS(hla_delete_object_instance_at(&f, 1, 1, 1), 101);
    IS(hla_change_attribute_order_type(&f, 1, 1, &one, 1, HLA_ORDER_RECEIVE), 101);
    IS(hla_change_interaction_order_type(&f, 1, 1, HLA_ORDER_RECEIVE), 101);
    IS(n == 7 && event.sender == 7 && event.serial == 7, 1);
}

static void closed_time_and_support(void)
{
    uint8_t bytes[1] = { 'a' };
    uint32_t n = 7;
    uint64_t t = 7;
    size_t used = 7;
    IS(hla_retract(&f, 1, 1, 1), 101);
    IS(hla_enable_time_regulation(&f, 1, 0, 1), 101);
    IS(hla_disable_time_regulation(&f, 1), 101);
    IS(hla_enable_time_constrained(&f, 1), 101);
    IS(hla_disable_time_constrained(&f, 1), 101);
    IS(hla_time_advance_request(&f, 1, 1), 101);
    IS(hla_time_advance_request_available(&f, 1, 1), 101);
    IS(hla_next_event_request(&f, 1, 1), 101);
    IS(hla_next_event_request_available(&f, 1, 1), 101);
    IS(hla_flush_queue_request(&f, 1, 1), 101);
    IS(hla_modify_lookahead(&f, 1, 1), 101);
    IS(hla_enable_asynchronous_delivery(&f, 1), 101);
    IS(hla_disable_asynchronous_delivery(&f, 1), 101);
    IS(hla_query_lbts(&f, 1, &t), 101);
    IS(hla_query_federate_time(&f, 1, &t), 101);
    IS(hla_query_min_next_event_time(&f, 1, &t), 101);
    IS(hla_query_lookahead(&f, 1, &t), 101);
    IS(hla_get_object_class_handle(&f, 1, bytes, 1, &n), 101);
    IS(hla_get_interaction_class_handle(&f, 1, bytes, 1, &n), 101);
    IS(hla_get_attribute_handle(&f, 1, bytes, 1, 1, &n), 101);
    IS(hla_get_parameter_handle(&f, 1, bytes, 1, 1, &n), 101);
    IS(hla_get_object_instance_handle(&f, 1, bytes, 1, &n), 101);
    IS(hla_get_object_instance_name(&f, 1, 1, bytes, 1, &used), 101);
    IS(n == 7 && t == 7 && used == 7, 1);
}

static void closed(void)
{
    closed_execution();
    closed_declaration_and_objects();
    closed_time_and_support();
}

static void opening(const uint8_t *fed, size_t length)
{
    hla_fed_fault fault = { 7, 7 };
    uint8_t name[64];
    size_t used = 0;
    IS(hla_open(&f, octets("(FED\n x"), 7, &fault), HLA_ERROR_READING_FED);
    IS(fault.line == 2, 1);
    IS(hla_fed_fault_name(fault.kind, name, sizeof name, &used), 0);
    IS(hla_open(&f, octets(""), 0, &fault), HLA_ERROR_READING_FED);
    closed();
    fault.line = 7;
    IS(hla_open(&f, fed, length, &fault), 0);
    IS(hla_open(&f, fed, length, &fault), HLA_HANDLE_OPEN);
    IS(fault.line == 7, 1);
}

static void names_of_faults(void)
{
    uint8_t name[64];
    size_t used = 7;
    for (uint32_t i = 1; i <= 40; i++)
        IS(hla_fault_name(i, name, sizeof name, &used), 0);
    IS(used == strlen("SynchronizationPointLabelWasNotAnnounced"), 1);
    IS(memcmp(name, "SynchronizationPointLabelWasNotAnnounced", used) == 0, 1);
    for (uint32_t i = 1; i <= 9; i++)
        IS(hla_fed_fault_name(i, name, sizeof name, &used), 0);
    IS(used == strlen("OutOfMemory") && memcmp(name, "OutOfMemory", used) == 0, 1);
    IS(hla_fault_name(HLA_NAME_NOT_FOUND, name, 11, &used), HLA_NO_ROOM);
    IS(used == 12, 1);
    IS(hla_fault_name(HLA_NAME_NOT_FOUND, name, 12, &used), 0);
    used = 7;
    IS(hla_fault_name(0, name, sizeof name, &used), HLA_NO_SUCH_NUMBER);
    IS(hla_fault_name(41, name, sizeof name, &used), HLA_NO_SUCH_NUMBER);
    IS(hla_fed_fault_name(0, name, sizeof name, &used), HLA_NO_SUCH_NUMBER);
    IS(hla_fed_fault_name(10, name, sizeof name, &used), HLA_NO_SUCH_NUMBER);
    IS(used == 7, 1);
}

static void joining(void)
{
    uint32_t n = 7;
    IS(hla_join_federation_execution(&f, octets("A"), 1, &a), 0);
    IS(hla_join_federation_execution(&f, octets("B"), 1, &b), 0);
    IS(a == 1 && b == 2, 1);
    IS(hla_join_federation_execution(&f, octets("A"), 1, &n), HLA_FEDERATE_ALREADY_EXECUTION_MEMBER);
    IS(hla_join_federation_execution(&f, octets(""), 0, &n), HLA_LIMIT_REACHED);
    IS(n == 7, 1);
    IS(hla_get_object_class_handle(&f, a, octets("Car"), 3, &car), 0);
    IS(hla_get_attribute_handle(&f, a, octets("Pos"), 3, car, &pos), 0);
    IS(hla_get_interaction_class_handle(&f, a, octets("InteractionRoot.Hit"), 19, &hit), 0);
    IS(hla_get_parameter_handle(&f, a, octets("Force"), 5, hit, &force), 0);
    IS(hla_get_object_class_handle(&f, a, octets("Bus"), 3, &n), HLA_NAME_NOT_FOUND);
    IS(hla_get_attribute_handle(&f, a, octets("Pos"), 3, 99, &n), HLA_OBJECT_CLASS_NOT_DEFINED);
    IS(hla_get_parameter_handle(&f, a, octets("Force"), 5, 99, &n), HLA_INTERACTION_CLASS_NOT_DEFINED);
    IS(hla_get_object_class_handle(&f, 9, octets("Car"), 3, &n), HLA_FEDERATE_NOT_EXECUTION_MEMBER);
    IS(n == 7, 1);
}

/* Names of numbers, with their room. */
static void names_of_numbers(void)
{
    uint8_t name[64];
    size_t used = 0;
    IS(hla_object_class_name(&f, car, name, 14, &used), 0);
    IS(used == 14 && memcmp(name, "ObjectRoot.Car", 14) == 0, 1);
    IS(hla_object_class_name(&f, car, name, 13, &used), HLA_NO_ROOM);
    IS(used == 14, 1);
    IS(hla_interaction_class_name(&f, hit, name, 18, &used), HLA_NO_ROOM);
    IS(used == 19, 1);
    IS(hla_attribute_name(&f, pos, name, 2, &used), HLA_NO_ROOM);
    IS(used == 3, 1);
    IS(hla_parameter_name(&f, force, name, 5, &used), 0);
    IS(used == 5 && memcmp(name, "Force", 5) == 0, 1);
    IS(hla_object_class_name(&f, 99, name, 64, &used), 0);
    IS(used == 0, 1);
}

/* Numbers that stand for nothing, and lengths that do not fit; nothing is sent by any of them. */
static void sending(void)
{
    static const uint8_t long_bytes[HLA_MAX_VALUE + 1] = { 0 };
    hla_value values[2] = { { force, 1 }, { force, 2 } }, too_long = { force, HLA_MAX_VALUE + 1 };
    hla_event event = { 7, 7 };
    hla_carried carried;
    IS(hla_change_interaction_order_type(&f, a, hit, 0), HLA_NO_SUCH_NUMBER);
    IS(hla_change_interaction_order_type(&f, a, hit, 3), HLA_NO_SUCH_NUMBER);
    IS(hla_change_attribute_order_type(&f, a, 1, &pos, 1, 3), HLA_NO_SUCH_NUMBER);
    IS(hla_resign_federation_execution(&f, a, 0), HLA_NO_SUCH_NUMBER);
    IS(hla_resign_federation_execution(&f, a, 5), HLA_NO_SUCH_NUMBER);
    IS(hla_publish_interaction_class(&f, a, 99), HLA_INTERACTION_CLASS_NOT_DEFINED);
    IS(hla_publish_interaction_class(&f, a, hit), 0);
    IS(hla_subscribe_interaction_class(&f, b, hit), 0);
    IS(hla_send_interaction(&f, a, hit, values, 2, octets("ab"), 2, &event), HLA_LIMIT_REACHED);
    IS(hla_send_interaction(&f, a, hit, values, 2, octets("abcd"), 4, &event), HLA_LIMIT_REACHED);
    IS(hla_send_interaction(&f, a, hit, values, 0, octets("a"), 1, &event), HLA_LIMIT_REACHED);
    IS(hla_send_interaction(&f, a, hit, &too_long, 1, long_bytes, sizeof long_bytes, &event), HLA_LIMIT_REACHED);
    values[0].length = UINT64_MAX;
    IS(hla_send_interaction(&f, a, hit, values, 2, octets("a"), 1, &event), HLA_LIMIT_REACHED);
    IS(event.sender == 7 && event.serial == 7, 1);
    IS(hla_carry(&f, a, b, &carried), 0);
    IS(carried.kind == HLA_CARRIED_NOTHING, 1);
    too_long.length = HLA_MAX_VALUE;
    IS(hla_send_interaction(&f, a, hit, &too_long, 1, long_bytes, HLA_MAX_VALUE, &event), 0);
    IS(event.sender == 0 && event.serial == 0, 1);
}

/* The one interaction that was sent, and too little room for it. */
static void receiving(void)
{
    uint8_t bytes[HLA_MAX_VALUE];
    hla_value got = { 7, 7 };
    hla_carried carried;
    hla_callback callback;
    size_t used = 7;
    IS(hla_carry(&f, a, a, &carried), HLA_FEDERATE_NOT_EXECUTION_MEMBER);
    IS(hla_carry(&f, a, b, &carried), 0);
    IS(carried.kind == HLA_CARRIED_EVENT && carried.sender == a && carried.serial == 1, 1);
    IS(hla_tick(&f, b, &callback), 0);
    IS(callback.kind == HLA_RECEIVE_INTERACTION && callback.class_ == hit && callback.values == 1, 1);
    IS(callback.bytes == HLA_MAX_VALUE && callback.delivery == HLA_DELIVERY_RECEIVE, 1);
    IS(hla_callback_values(&f, &got, 0, bytes, sizeof bytes), HLA_NO_ROOM);
    IS(hla_callback_values(&f, &got, 1, bytes, sizeof bytes - 1), HLA_NO_ROOM);
    IS(got.handle == 7 && got.length == 7, 1);
    IS(hla_callback_values(&f, &got, 1, bytes, sizeof bytes), 0);
    IS(got.handle == force && got.length == HLA_MAX_VALUE, 1);
    IS(hla_callback_name(&f, bytes, 0, &used), 0);
    IS(used == 0, 1);
    IS(hla_tick(&f, 9, &callback), HLA_FEDERATE_NOT_EXECUTION_MEMBER);
    IS(hla_callback_values(&f, &got, 1, bytes, sizeof bytes), 0);
    IS(hla_register_federation_synchronization_point(&f, a, octets("ready"), 5), 0);
    IS(hla_tick(&f, a, &callback), 0);
    IS(callback.kind == HLA_SYNCHRONIZATION_POINT_REGISTRATION_SUCCEEDED && callback.bytes == 5, 1);
    IS(hla_callback_name(&f, bytes, 4, &used), HLA_NO_ROOM);
    IS(used == 5, 1);
    IS(hla_callback_name(&f, bytes, 5, &used), 0);
    IS(memcmp(bytes, "ready", 5) == 0, 1);
}

int main(int argc, char **argv)
{
    static uint8_t fed[1 << 20];
    FILE *file = argc == 2 ? fopen(argv[1], "rb") : NULL;
    if (file == NULL) {
        fprintf(stderr, "usage: faults FED\n");
        return 2;
    }
    size_t length = fread(fed, 1, sizeof fed, file);
    fclose(file);
    closed();
    opening(fed, length);
    names_of_faults();
    joining();
    names_of_numbers();
    sending();
    receiving();
    IS(hla_close(&f), 0);
    closed();
    printf("%u checks, %u failures\n", checks, failures);
    return failures == 0 ? 0 : 1;
}
