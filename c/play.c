/* Plays a script of service calls over the interface for C, and prints the transcript that `hlaplay play` prints of
 * it: so each stored script of examples/ tries the calls that its words name. Usage: play FED SCRIPT */
#include "hla13.h"

#include <inttypes.h>
#include <stdarg.h>
#include <stdio.h>
#include <stdlib.h>
#include <string.h>

enum { MOST_WORDS = 64, MOST_JOINS = 16, MOST_LINE = 4096 };

static hla_federation f = HLA_CLOSED;
static uint8_t fed[1 << 20];
static size_t fed_length;
static char names[MOST_JOINS + 1][65]; /* who joined, by number */
static int joined[MOST_JOINS + 1];
static uint32_t joins;

static char *words[MOST_WORDS]; /* of the line, without the stamp */
static size_t count;
static int has_stamp;
static uint64_t stamp;
static uint32_t self;
static char rest[2 * MOST_LINE]; /* what is printed after `ok` */

static const uint8_t *octets(const char *text)
{
    return (const uint8_t *)text;
}

static void say(const char *form, ...)
{
    size_t used = strlen(rest);
    va_list items;
    va_start(items, form);
    vsnprintf(rest + used, sizeof rest - used, form, items);
    va_end(items);
}

static void say_time(const char *before, uint64_t time)
{
    if (time == HLA_FOREVER)
        say("%sforever", before);
    else
        say("%s%" PRIu64, before, time);
}

/* A name that a call wrote. */
static void say_text(const char *before, const uint8_t *bytes, size_t length)
{
    say("%s%.*s", before, (int)length, (const char *)bytes);
}

/* A word of the line; empty where there is none. */
static const char *word(size_t place)
{
    return place < count ? words[place] : "";
}

static uint64_t number(size_t place)
{
    return strtoull(word(place), NULL, 10);
}

/* The federate that joined last under a name; 0, which nobody has, where there is none. */
static uint32_t federate(const char *name)
{
    for (uint32_t i = joins; i > 0; i--)
        if (strcmp(names[i], name) == 0)
            return i;
    return 0;
}

static uint32_t object_class(size_t place, uint32_t *class_)
{
    return hla_get_object_class_handle(&f, self, octets(word(place)), strlen(word(place)), class_);
}

static uint32_t interaction_class(size_t place, uint32_t *class_)
{
    return hla_get_interaction_class_handle(&f, self, octets(word(place)), strlen(word(place)), class_);
}

/* The attributes that are named from a place on. */
static uint32_t attributes(size_t place, uint32_t class_, uint32_t *handles)
{
    uint32_t code = 0;
    for (size_t i = place; i < count && code == 0; i++)
        code = hla_get_attribute_handle(&f, self, octets(words[i]), strlen(words[i]), class_, &handles[i - place]);
    return code;
}

typedef uint32_t look_up(hla_federation *, uint32_t, const uint8_t *, size_t, uint32_t, uint32_t *);

static hla_value heads[MOST_WORDS];
static uint8_t bytes[MOST_LINE];
static size_t bytes_length;

/* The values from a place on, NAME=VALUE, as heads and bytes. */
static uint32_t values(size_t place, uint32_t class_, look_up *look)
{
    uint32_t code = 0;
    bytes_length = 0;
    for (size_t i = place; i < count && code == 0; i++) {
        size_t name = strcspn(words[i], "="), length = strlen(words[i] + name + 1);
        heads[i - place].length = length;
        memcpy(bytes + bytes_length, words[i] + name + 1, length);
        bytes_length += length;
        code = look(&f, self, octets(words[i]), name, class_, &heads[i - place].handle);
    }
    return code;
}

static void say_sent(const hla_event *event)
{
    if (event->serial > 0)
        say(" %" PRIu32 ".%" PRIu64, event->sender, event->serial);
}

/* ---- Words that stand alone ---- */

static uint32_t create(void)
{
    hla_fed_fault fault = { 0, 0 };
    uint32_t code = hla_open(&f, fed, fed_length, &fault);
    return code == HLA_HANDLE_OPEN ? (uint32_t)HLA_FEDERATION_EXECUTION_ALREADY_EXISTS : code;
}

static uint32_t destroy(void)
{
    for (uint32_t i = 1; i <= joins; i++)
        if (joined[i])
            return HLA_FEDERATES_CURRENTLY_JOINED;
    joins = 0;
    return hla_close(&f);
}

static uint32_t join(void)
{
    uint32_t given = 0;
    uint32_t code = hla_join_federation_execution(&f, octets(word(1)), strlen(word(1)), &given);
    if (code != 0)
        return code;
    joins = given;
    joined[given] = 1;
    snprintf(names[given], sizeof names[given], "%s", word(1));
    say(" %" PRIu32, given);
    return 0;
}

static uint32_t carry(void)
{
    static const char *const kinds[] = { " none", " null ", " event ", " removal ", " retraction ", " discovery " };
    hla_carried carried = { 0, 0, 0, 0, 0 };
    uint32_t code = hla_carry(&f, federate(word(1)), federate(word(2)), &carried);
    if (code != 0)
        return code;
    if (carried.kind == HLA_CARRIED_NULL_MESSAGE)
        say_time(kinds[carried.kind], carried.bound);
    else if (carried.kind == HLA_CARRIED_DISCOVERY)
        say("%s%" PRIu32, kinds[carried.kind], carried.object);
    else if (carried.kind == HLA_CARRIED_NOTHING)
        say("%s", kinds[carried.kind]);
    else
        say("%s%" PRIu32 ".%" PRIu64, kinds[carried.kind], carried.sender, carried.serial);
    return 0;
}

static uint32_t announce(void)
{
    uint64_t promise = 0;
    uint32_t code = hla_announce(&f, federate(word(1)), &promise);
    if (code == 0 && promise == 0)
        say(" none");
    else if (code == 0)
        say_time(" ", promise);
    return code;
}

/* ---- What a tick gave ---- */

typedef uint32_t name_of(hla_federation *, uint32_t, uint8_t *, size_t, size_t *);

static uint32_t say_name(const char *before, name_of *call, uint32_t of)
{
    uint8_t name[MOST_LINE];
    size_t used = 0;
    uint32_t code = call(&f, of, name, sizeof name, &used);
    if (code == 0)
        say_text(before, name, used);
    return code;
}

static uint32_t say_label(const char *before)
{
    uint8_t name[MOST_LINE];
    size_t used = 0;
    uint32_t code = hla_callback_name(&f, name, sizeof name, &used);
    if (code == 0)
        say_text(before, name, used);
    return code;
}

static uint32_t say_values(const hla_callback *given, name_of *call)
{
    hla_value got[MOST_WORDS];
    uint8_t octets_got[MOST_LINE];
    size_t start = 0;
    uint32_t code = hla_callback_values(&f, got, MOST_WORDS, octets_got, sizeof octets_got);
    for (size_t i = 0; i < given->values && code == 0; i++) {
        code = say_name(" ", call, got[i].handle);
        say_text("=", octets_got + start, got[i].length);
        start += got[i].length;
    }
    return code;
}

static void say_delivery(const hla_callback *given)
{
    say(given->delivery == HLA_DELIVERY_TIME_STAMP ? " TSO" : " RO");
    if (given->delivery != HLA_DELIVERY_RECEIVE)
        say(" %" PRIu64 " %" PRIu32 ".%" PRIu64, given->stamp, given->sender, given->serial);
}

static uint32_t say_message(const hla_callback *given)
{
    uint32_t code = 0;
    if (given->kind == HLA_REFLECT_ATTRIBUTE_VALUES) {
        say(" reflect %" PRIu32, given->object);
        code = say_values(given, hla_attribute_name);
    } else if (given->kind == HLA_RECEIVE_INTERACTION) {
        code = say_name(" receive ", hla_interaction_class_name, given->class_);
        if (code == 0)
            code = say_values(given, hla_parameter_name);
    } else
        say(" remove %" PRIu32, given->object);
    say_delivery(given);
    return code;
}

static uint32_t tick(void)
{
    static const char *const words_of[] = {
        " nothing", " discover ", "", "", "", " regulationEnabled ", " constrainedEnabled ", " grant ",
        " requestRetraction ", " syncRegistered ", " syncRefused ", " syncAnnounced ", " synchronized ",
    };
    hla_callback given;
    uint32_t code = hla_tick(&f, self, &given);
    if (code != 0)
        return code;
    const char *begin = words_of[given.kind];
    switch (given.kind) {
    case HLA_NO_CALLBACK:
        say("%s", begin);
        return 0;
    case HLA_DISCOVER_OBJECT_INSTANCE:
        say("%s%" PRIu32, begin, given.object);
        code = say_name(" ", hla_object_class_name, given.class_);
        return code != 0 ? code : say_label(" ");
    case HLA_REFLECT_ATTRIBUTE_VALUES:
    case HLA_RECEIVE_INTERACTION:
    case HLA_REMOVE_OBJECT_INSTANCE:
        return say_message(&given);
    case HLA_TIME_REGULATION_ENABLED:
    case HLA_TIME_CONSTRAINED_ENABLED:
    case HLA_TIME_ADVANCE_GRANT:
        say_time(begin, given.time);
        return 0;
    case HLA_REQUEST_RETRACTION:
        say("%s%" PRIu32 ".%" PRIu64, begin, given.sender, given.serial);
        return 0;
    default:
        return say_label(begin);
    }
}

/* ---- A federate's words with arguments of their own ---- */

static uint32_t resign(void)
{
    static const char *const actions[] = {
        "", "RELEASE_ATTRIBUTES", "DELETE_OBJECTS", "DELETE_OBJECTS_AND_RELEASE_ATTRIBUTES", "NO_ACTION",
    };
    uint32_t action = 0;
    for (uint32_t i = HLA_RELEASE_ATTRIBUTES; i <= HLA_NO_ACTION; i++)
        if (strcmp(word(2), actions[i]) == 0)
            action = i;
    uint32_t code = hla_resign_federation_execution(&f, self, action);
    if (code == 0)
        joined[self] = 0;
    return code;
}

static uint32_t register_object(void)
{
    uint32_t class_ = 0, object = 0;
    uint8_t name[256];
    size_t used = 0;
    uint32_t code = object_class(2, &class_);
    if (code == 0 && count > 3)
        code = hla_register_named_object_instance(&f, self, class_, octets(word(3)), strlen(word(3)), &object);
    else if (code == 0)
        code = hla_register_object_instance(&f, self, class_, &object);
    if (code == 0)
        code = hla_get_object_instance_name(&f, self, object, name, sizeof name, &used);
    if (code == 0) {
        say(" %" PRIu32, object);
        say_text(" ", name, used);
    }
    return code;
}

static uint32_t update(void)
{
    uint32_t class_ = 0, object = (uint32_t)number(2);
    hla_event event = { 0, 0 };
    uint32_t code = object_class(3, &class_);
    if (code == 0)
        code = values(4, class_, hla_get_attribute_handle);
    if (code == 0 && has_stamp)
        code = hla_update_attribute_values_at(&f, self, object, heads, count - 4, bytes, bytes_length, stamp, &event);
    else if (code == 0)
        code = hla_update_attribute_values(&f, self, object, heads, count - 4, bytes, bytes_length, &event);
    say_sent(&event);
    return code;
}

static uint32_t send_interaction(void)
{
    uint32_t class_ = 0;
    hla_event event = { 0, 0 };
    uint32_t code = interaction_class(2, &class_);
    if (code == 0)
        code = values(3, class_, hla_get_parameter_handle);
    if (code == 0 && has_stamp)
        code = hla_send_interaction_at(&f, self, class_, heads, count - 3, bytes, bytes_length, stamp, &event);
    else if (code == 0)
        code = hla_send_interaction(&f, self, class_, heads, count - 3, bytes, bytes_length, &event);
    say_sent(&event);
    return code;
}

static uint32_t delete_object(void)
{
    if (has_stamp)
        return hla_delete_object_instance_at(&f, self, (uint32_t)number(2), stamp);
    return hla_delete_object_instance(&f, self, (uint32_t)number(2));
}

static uint32_t retract(void)
{
    const char *serial = strchr(word(2), '.');
    return hla_retract(&f, self, (uint32_t)number(2), serial == NULL ? 0 : strtoull(serial + 1, NULL, 10));
}

static uint32_t order(size_t place)
{
    return strcmp(word(place), "timestamp") == 0 ? HLA_ORDER_TIME_STAMP : HLA_ORDER_RECEIVE;
}

static uint32_t attribute_order(void)
{
    uint32_t class_ = 0, handles[MOST_WORDS] = { 0 };
    uint32_t code = object_class(3, &class_);
    if (code == 0)
        code = attributes(5, class_, handles);
    if (code == 0)
        code = hla_change_attribute_order_type(&f, self, (uint32_t)number(2), handles, count - 5, order(4));
    return code;
}

static uint32_t interaction_order(void)
{
    uint32_t class_ = 0;
    uint32_t code = interaction_class(2, &class_);
    return code != 0 ? code : hla_change_interaction_order_type(&f, self, class_, order(3));
}

static uint32_t regulate(void)
{
    return hla_enable_time_regulation(&f, self, number(2), number(3));
}

static uint32_t object_handle(void)
{
    uint32_t object = 0;
    uint32_t code = hla_get_object_instance_handle(&f, self, octets(word(2)), strlen(word(2)), &object);
    if (code == 0)
        say(" %" PRIu32, object);
    return code;
}

static uint32_t object_name(void)
{
    uint8_t name[256];
    size_t used = 0;
    uint32_t code = hla_get_object_instance_name(&f, self, (uint32_t)number(2), name, sizeof name, &used);
    if (code == 0)
        say_text(" ", name, used);
    return code;
}

/* ---- The words, by what they take ---- */

static const struct {
    const char *word;
    uint32_t (*act)(void);
} alone[] = { { "create", create }, { "destroy", destroy }, { "join", join }, { "carry", carry },
              { "announce", announce } };

static const struct {
    const char *word;
    uint32_t (*act)(void);
} own[] = { { "tick", tick }, { "resign", resign }, { "register", register_object }, { "update", update },
            { "send", send_interaction }, { "delete", delete_object }, { "retract", retract },
            { "attributeOrder", attribute_order }, { "interactionOrder", interaction_order },
            { "regulate", regulate }, { "objectHandle", object_handle }, { "objectName", object_name } };

static const struct {
    const char *word;
    uint32_t (*call)(hla_federation *, uint32_t);
} plain[] = { { "unregulate", hla_disable_time_regulation }, { "constrain", hla_enable_time_constrained },
              { "unconstrain", hla_disable_time_constrained }, { "asyncOn", hla_enable_asynchronous_delivery },
              { "asyncOff", hla_disable_asynchronous_delivery } };

static const struct {
    const char *word;
    uint32_t (*call)(hla_federation *, uint32_t, uint64_t);
} with_time[] = { { "tar", hla_time_advance_request }, { "tara", hla_time_advance_request_available },
                  { "ner", hla_next_event_request }, { "nera", hla_next_event_request_available },
                  { "fqr", hla_flush_queue_request }, { "modifyLookahead", hla_modify_lookahead } };

static const struct {
    const char *word;
    uint32_t (*call)(hla_federation *, uint32_t, uint64_t *);
} queries[] = { { "lbts", hla_query_lbts }, { "time", hla_query_federate_time },
                { "minNext", hla_query_min_next_event_time }, { "lookahead", hla_query_lookahead } };

static const struct {
    const char *word;
    uint32_t (*find)(size_t, uint32_t *);
    uint32_t (*call)(hla_federation *, uint32_t, uint32_t);
} with_class[] = { { "unpublishObject", object_class, hla_unpublish_object_class },
                   { "unsubscribeObject", object_class, hla_unsubscribe_object_class },
                   { "publishInteraction", interaction_class, hla_publish_interaction_class },
                   { "unpublishInteraction", interaction_class, hla_unpublish_interaction_class },
                   { "subscribeInteraction", interaction_class, hla_subscribe_interaction_class },
                   { "unsubscribeInteraction", interaction_class, hla_unsubscribe_interaction_class } };

static const struct {
    const char *word;
    uint32_t (*call)(hla_federation *, uint32_t, uint32_t, const uint32_t *, size_t);
} with_attributes[] = { { "publishObject", hla_publish_object_class },
                        { "subscribeObject", hla_subscribe_object_class_attributes } };

static const struct {
    const char *word;
    uint32_t (*call)(hla_federation *, uint32_t, const uint8_t *, size_t);
} with_label[] = { { "syncRegister", hla_register_federation_synchronization_point },
                   { "syncAchieve", hla_synchronization_point_achieved } };

/* Each entry of a table whose word stands at the place. */
#define EACH(TABLE, PLACE)                                                                                             \
    for (size_t i = 0; i < sizeof TABLE / sizeof TABLE[0]; i++)                                                        \
        if (strcmp(word(PLACE), TABLE[i].word) == 0)

static uint32_t act_with_class(void)
{
    uint32_t class_ = 0, handles[MOST_WORDS] = { 0 }, code = 0;
    EACH(with_class, 1)
    {
        code = with_class[i].find(2, &class_);
        return code != 0 ? code : with_class[i].call(&f, self, class_);
    }
    EACH(with_attributes, 1)
    {
        code = object_class(2, &class_);
        if (code == 0)
            code = attributes(3, class_, handles);
        return code != 0 ? code : with_attributes[i].call(&f, self, class_, handles, count - 3);
    }
    fprintf(stderr, "no such word: %s %s\n", word(0), word(1));
    exit(1);
}

/* What the line asks for; answers how it ended. */
static uint32_t act(void)
{
    EACH(alone, 0) return alone[i].act();
    self = federate(word(0));
    EACH(own, 1) return own[i].act();
    EACH(plain, 1) return plain[i].call(&f, self);
    EACH(with_time, 1) return with_time[i].call(&f, self, number(2));
    EACH(queries, 1)
    {
        uint64_t time = 0;
        uint32_t code = queries[i].call(&f, self, &time);
        if (code == 0)
            say_time(" ", time);
        return code;
    }
    EACH(with_label, 1) return with_label[i].call(&f, self, octets(word(2)), strlen(word(2)));
    return act_with_class();
}

/* Prints how a line ended. */
static void print_line(unsigned place, uint32_t code)
{
    uint8_t name[64];
    size_t used = 0;
    if (code == HLA_HANDLE_CLOSED)
        code = HLA_FEDERATION_EXECUTION_DOES_NOT_EXIST;
    if (code == 0)
        printf("%u ok%s\n", place, rest);
    else if (hla_fault_name(code, name, sizeof name, &used) == 0)
        printf("%u error %" PRIu32 " %.*s\n", place, code, (int)used, (const char *)name);
    else
        printf("%u code %" PRIu32 "\n", place, code);
}

/* Splits a line at its blanks; a stamp is set apart. */
static void split(char *line)
{
    count = 0;
    has_stamp = 0;
    for (char *at = strtok(line, " \t\r\n"); at != NULL && count < MOST_WORDS; at = strtok(NULL, " \t\r\n"))
        words[count++] = at;
    if (count > 0 && words[count - 1][0] == '@') {
        has_stamp = 1;
        stamp = strtoull(words[--count] + 1, NULL, 10);
    }
}

int main(int argc, char **argv)
{
    char line[MOST_LINE];
    FILE *file = argc == 3 ? fopen(argv[1], "rb") : NULL;
    FILE *script = argc == 3 ? fopen(argv[2], "rb") : NULL;
    if (file == NULL || script == NULL) {
        fprintf(stderr, "usage: play FED SCRIPT\n");
        return 2;
    }
    fed_length = fread(fed, 1, sizeof fed, file);
    fclose(file);
    for (unsigned place = 1; fgets(line, sizeof line, script) != NULL; place++) {
        if (line[0] == '#')
            continue;
        split(line);
        rest[0] = '\0';
        if (count > 0)
            print_line(place, act());
    }
    fclose(script);
    hla_close(&f); /* where it was not destroyed */
    return 0;
}
