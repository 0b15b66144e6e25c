/* Federation executions of the High Level Architecture for C programs: the services of the DMSO Interface Specification
 * 1.3 that this profile has (docs/RULES.md), those by which messages are carried and promises announced, and
 * callbacks as plain data.
 *
 * A program links libhla_c.a and the heap of the toolchain (liblibc_c.a, over malloc, realloc and free), or a shared
 * object made of both. There is no global state: executions do not know of each other, and none has a thread of its
 * own.
 *
 * What is counted how:
 *  - Times, stamps, lookaheads, promises and bounds are ticks, from 0 to 10^18 (HLA_MAX_TIME); HLA_FOREVER stands
 *    above all.
 *  - Lengths are bytes. Names and labels are bytes without a zero at the end, and no length counts one.
 *  - Federates, classes, attributes, parameters and objects are numbers from 1 on, each within the execution.
 *  - Values are two arrays: heads, which say of each value its attribute or parameter and its length, and the bytes
 *    of all, one behind another. A value has at most 1,024 bytes (HLA_MAX_VALUE).
 *
 * What every call answers: 0; or the number of a fault of the execution (HLA_FEDERATION_EXECUTION_ALREADY_EXISTS and
 * those behind it, 1 to 40); or a fault of this interface (HLA_HANDLE_CLOSED and those behind it, from 101 on). Where
 * it is not 0, nothing has changed, and nothing is written, but that HLA_NO_ROOM writes `used`, the length that is
 * needed, and hla_open may write its `fault`.
 *
 * Faults that are not told again at each call:
 *  - HLA_HANDLE_CLOSED (101), before all else, where the federation is not open: never opened, closed, or in another
 *    call.
 *  - HLA_NO_SUCH_NUMBER (103), next, where an order or an action is none of its enumeration.
 *  - HLA_LIMIT_REACHED (36), next, where the lengths of values do not add up to `bytes_length`, or a value is longer
 *    than 1,024 bytes.
 *  - HLA_FEDERATE_NOT_EXECUTION_MEMBER (6), before all that follow, at each call that has a `federate`, where it is
 *    not joined.
 *  - HLA_OUT_OF_MEMORY (38), at any place among them, where a growth was refused. The same call may be made again.
 * The others are told at each call in the order in which they are tested; the first that applies is answered.
 *
 * What the caller owes, since no call can test it:
 *  - No pointer is null, also where its count or length is 0, and it leads to as many items as that says.
 *  - What is handed in is written by nobody during the call. What is written to overlaps nothing else that is handed
 *    in.
 *  - A federation is HLA_CLOSED (zeroed memory) before its first call. It stays where it was opened: nothing but
 *    these calls writes, copies or moves it. A copy of an open one is not noticed, and is used up once the other is.
 *  - Calls on one federation follow one another, whichever threads make them: across threads a mutex does it. Calls on
 *    different federations may overlap.
 *  - An open federation is closed in the end, else its memory is lost.
 *  - malloc, realloc and free are one allocator for the whole program, and what they give is aligned to 16 bytes.
 *  - No call is made from a signal handler, nor in the forked child of a program with threads.
 */
#ifndef HLA13_H
#define HLA13_H

#include <stddef.h>
#include <stdint.h>

#ifdef __cplusplus
extern "C" {
#endif

#define HLA_MAX_TIME UINT64_C(1000000000000000000)
#define HLA_FOREVER UINT64_MAX
#define HLA_MAX_VALUE 1024

/* A federation execution. `hla_federation f = HLA_CLOSED;` is one that is not open. */
typedef struct hla_federation {
    uint64_t tag;
    void *at;
} hla_federation;
#define HLA_CLOSED { 0, NULL }

/* The head of a value: its attribute or parameter, and its length in bytes. */
typedef struct hla_value {
    uint32_t handle;
    uint64_t length;
} hla_value;

/* An event retraction handle: a message that was sent in time-stamp order, by its sender and its serial among its
 * sender's messages. Both are 0 where there is none. */
typedef struct hla_event {
    uint32_t sender;
    uint64_t serial;
} hla_event;

enum {
    HLA_CARRIED_NOTHING = 0,
    HLA_CARRIED_NULL_MESSAGE = 1,
    HLA_CARRIED_EVENT = 2, /* an interaction or an update */
    HLA_CARRIED_DELETION = 3,
    HLA_CARRIED_RETRACTION = 4,
    HLA_CARRIED_DISCOVERY = 5
};

/* What a carry took from its wire. A field that the kind does not have is 0. */
typedef struct hla_carried {
    uint32_t kind;
    uint32_t sender; /* of an event, a deletion, or the message that is retracted */
    uint64_t serial; /* the same */
    uint64_t bound;  /* of a null message: in ticks, or HLA_FOREVER */
    uint32_t object; /* of a discovery */
} hla_carried;

enum {
    HLA_NO_CALLBACK = 0,
    HLA_DISCOVER_OBJECT_INSTANCE = 1,
    HLA_REFLECT_ATTRIBUTE_VALUES = 2,
    HLA_RECEIVE_INTERACTION = 3,
    HLA_REMOVE_OBJECT_INSTANCE = 4,
    HLA_TIME_REGULATION_ENABLED = 5,
    HLA_TIME_CONSTRAINED_ENABLED = 6,
    HLA_TIME_ADVANCE_GRANT = 7,
    HLA_REQUEST_RETRACTION = 8,
    HLA_SYNCHRONIZATION_POINT_REGISTRATION_SUCCEEDED = 9,
    HLA_SYNCHRONIZATION_POINT_REGISTRATION_FAILED = 10,
    HLA_ANNOUNCE_SYNCHRONIZATION_POINT = 11,
    HLA_FEDERATION_SYNCHRONIZED = 12
};

enum {
    HLA_DELIVERY_RECEIVE = 0,   /* sent and given in receive order */
    HLA_DELIVERY_DEMOTED = 1,   /* sent in time-stamp order, and given in receive order */
    HLA_DELIVERY_TIME_STAMP = 2 /* given in time-stamp order */
};

/* What a tick gave, but for its values and its text. A field that the kind does not have is 0. */
typedef struct hla_callback {
    uint32_t kind;
    uint32_t object;   /* of kinds 1, 2 and 4 */
    uint32_t class_;   /* the object's class of kind 1, the interaction's of kind 3: the one at which it is given */
    uint32_t delivery; /* of kinds 2, 3 and 4 */
    uint32_t sender;   /* of kinds 2, 3, 4 and 8 */
    uint64_t serial;   /* of kinds 2, 3, 4 and 8 */
    uint64_t stamp;    /* in ticks, of a delivery 1 or 2 */
    uint64_t time;     /* the federate's time in ticks, of kinds 5, 6 and 7 */
    uint64_t values;   /* how many values hla_callback_values writes: of kinds 2 and 3 */
    uint64_t bytes;    /* their bytes, of kinds 2 and 3; what hla_callback_name writes, of kinds 1 and 9 to 12 */
} hla_callback;

/* Why a FED file is refused: its line, from 1 on, and the kind of the fault, 1 to 9 (hla_fed_fault_name). */
typedef struct hla_fed_fault {
    uint64_t line;
    uint32_t kind;
} hla_fed_fault;

enum { HLA_ORDER_RECEIVE = 1, HLA_ORDER_TIME_STAMP = 2 };

enum {
    HLA_RELEASE_ATTRIBUTES = 1,
    HLA_DELETE_OBJECTS = 2,
    HLA_DELETE_OBJECTS_AND_RELEASE_ATTRIBUTES = 3,
    HLA_NO_ACTION = 4
};

/* The exceptions of HLA 1.3; HLA_LIMIT_REACHED, HLA_HISTORY_FULL and HLA_OUT_OF_MEMORY are this profile's. Not
 * answered here, since they belong to executions by name, to ambassadors and to a history: 1, 2, 3, 35 and 37. */
enum {
    HLA_FEDERATION_EXECUTION_ALREADY_EXISTS = 1,
    HLA_FEDERATION_EXECUTION_DOES_NOT_EXIST = 2,
    HLA_FEDERATES_CURRENTLY_JOINED = 3,
    HLA_ERROR_READING_FED = 4,
    HLA_FEDERATE_ALREADY_EXECUTION_MEMBER = 5,
    HLA_FEDERATE_NOT_EXECUTION_MEMBER = 6,
    HLA_FEDERATE_OWNS_ATTRIBUTES = 7,
    HLA_OBJECT_CLASS_NOT_DEFINED = 8,
    HLA_ATTRIBUTE_NOT_DEFINED = 9,
    HLA_OBJECT_CLASS_NOT_PUBLISHED = 10,
    HLA_ATTRIBUTE_NOT_PUBLISHED = 11,
    HLA_OBJECT_CLASS_NOT_SUBSCRIBED = 12,
    HLA_INTERACTION_CLASS_NOT_DEFINED = 13,
    HLA_INTERACTION_PARAMETER_NOT_DEFINED = 14,
    HLA_INTERACTION_CLASS_NOT_PUBLISHED = 15,
    HLA_INTERACTION_CLASS_NOT_SUBSCRIBED = 16,
    HLA_OBJECT_ALREADY_REGISTERED = 17,
    HLA_OBJECT_NOT_KNOWN = 18,
    HLA_ATTRIBUTE_NOT_OWNED = 19,
    HLA_DELETE_PRIVILEGE_NOT_HELD = 20,
    HLA_INVALID_FEDERATION_TIME = 21,
    HLA_INVALID_LOOKAHEAD = 22,
    HLA_FEDERATION_TIME_ALREADY_PASSED = 23,
    HLA_TIME_ADVANCE_ALREADY_IN_PROGRESS = 24,
    HLA_TIME_REGULATION_ALREADY_ENABLED = 25,
    HLA_ENABLE_TIME_REGULATION_PENDING = 26,
    HLA_TIME_REGULATION_WAS_NOT_ENABLED = 27,
    HLA_TIME_CONSTRAINED_ALREADY_ENABLED = 28,
    HLA_ENABLE_TIME_CONSTRAINED_PENDING = 29,
    HLA_TIME_CONSTRAINED_WAS_NOT_ENABLED = 30,
    HLA_ASYNCHRONOUS_DELIVERY_ALREADY_ENABLED = 31,
    HLA_ASYNCHRONOUS_DELIVERY_ALREADY_DISABLED = 32,
    HLA_INVALID_RETRACTION_HANDLE = 33,
    HLA_NAME_NOT_FOUND = 34,
    HLA_FEDERATE_INTERNAL_ERROR = 35,
    HLA_LIMIT_REACHED = 36,
    HLA_HISTORY_FULL = 37,
    HLA_OUT_OF_MEMORY = 38,
    HLA_INVALID_RESIGN_ACTION = 39,
    HLA_SYNCHRONIZATION_POINT_LABEL_WAS_NOT_ANNOUNCED = 40
};

/* Faults of this interface. */
enum { HLA_HANDLE_CLOSED = 101, HLA_NO_ROOM = 102, HLA_NO_SUCH_NUMBER = 103, HLA_HANDLE_OPEN = 104 };

/* ---- The execution ---- */

/* Opens a federation with an execution that no federate has joined, from the bytes of a FED file, at most 1,048,576,
 * which are not kept.
 * HLA_HANDLE_OPEN where it is open; HLA_ERROR_READING_FED where the file is refused, and then `fault` is written;
 * HLA_OUT_OF_MEMORY, where `fault` is written if it was the reading that ran out, and else stays as it was. */
uint32_t hla_open(hla_federation *f, const uint8_t *fed, size_t fed_length, hla_fed_fault *fault);

/* Closes a federation and gives its memory back, also where federates are joined: they are joined no more. */
uint32_t hla_close(hla_federation *f);

/* Join Federation Execution, under a name of 1 to 64 bytes. Writes the federate's number: 1, 2, .. in order of
 * joining; a number is not used again.
 * HLA_FEDERATE_ALREADY_EXECUTION_MEMBER where a joined federate has the name; HLA_LIMIT_REACHED where the name has
 * another length, or 16 federates have joined so far. */
uint32_t hla_join_federation_execution(hla_federation *f, const uint8_t *name, size_t name_length, uint32_t *federate);

/* Resign Federation Execution. HLA_DELETE_OBJECTS deletes the federate's objects; what is under way to it is dropped,
 * and what it sent is still carried: carry its wires, too.
 * HLA_NO_SUCH_NUMBER; HLA_INVALID_RESIGN_ACTION where the action releases attributes; HLA_FEDERATE_OWNS_ATTRIBUTES by
 * HLA_NO_ACTION while it has objects; HLA_LIMIT_REACHED where a deletion would need a serial above 10^18. */
uint32_t hla_resign_federation_execution(hla_federation *f, uint32_t federate, uint32_t action);

/* The first message on the wire from one federate to another arrives (this profile). Writes what it was:
 * HLA_CARRIED_NOTHING where the wire is empty. Nothing is ever given by it: its receiver is told at a tick.
 * HLA_FEDERATE_NOT_EXECUTION_MEMBER where `to` is not joined, `from` never was, or both are one. */
uint32_t hla_carry(hla_federation *f, uint32_t from, uint32_t to, hla_carried *carried);

/* A federate puts its promise on each of its wires by a null message, where it is above the last one (this profile).
 * Writes the promise in ticks, or 0 where there was nothing to announce, as of a federate that does not regulate.
 * Federates' bounds rise by nothing else: announce often, carry every wire until it is empty, and tick, and grants
 * come. */
uint32_t hla_announce(hla_federation *f, uint32_t federate, uint64_t *promise);

/* Tick: the federate picks up at most one callback. Writes what it tells; its kind is HLA_NO_CALLBACK where there is
 * none now. It stays the federation's last callback, for the two calls below, until the next tick of any federate
 * that answers 0. */
uint32_t hla_tick(hla_federation *f, uint32_t federate, hla_callback *callback);

/* Writes the values of the last callback, by rising handle: as many heads and bytes as its `values` and `bytes` say;
 * what lies behind them stays. None where it has no values. May be called again.
 * HLA_NO_ROOM where `values_count` or `bytes_length` is less; then nothing is written. */
uint32_t hla_callback_values(hla_federation *f, hla_value *values, size_t values_count, uint8_t *bytes,
                             size_t bytes_length);

/* Writes the object's name of a discovery, or the label of a synchronization point, of the last callback, and its
 * length to `used`; none, and 0, where it has none. May be called again. HLA_NO_ROOM where `bytes_length` is less;
 * then `used` alone. */
uint32_t hla_callback_name(hla_federation *f, uint8_t *bytes, size_t bytes_length, size_t *used);

/* ---- Names of numbers. Each writes the name, and its length to `used`. ----
 * HLA_NO_ROOM where `bytes_length` is less; then `used` alone. A class, an attribute or a parameter that is not there
 * has an empty name; a fault or a kind that is not there is refused with HLA_NO_SUCH_NUMBER. */

/* A class by its path from the root, as InteractionRoot.Hit: what hla_get_object_class_handle and its like take. */
uint32_t hla_object_class_name(hla_federation *f, uint32_t class_, uint8_t *bytes, size_t bytes_length, size_t *used);
uint32_t hla_interaction_class_name(hla_federation *f, uint32_t class_, uint8_t *bytes, size_t bytes_length,
                                    size_t *used);

/* An attribute or a parameter by its own name, at most 255 bytes. */
uint32_t hla_attribute_name(hla_federation *f, uint32_t attribute, uint8_t *bytes, size_t bytes_length, size_t *used);
uint32_t hla_parameter_name(hla_federation *f, uint32_t parameter, uint8_t *bytes, size_t bytes_length, size_t *used);

/* A fault of an execution, 1 to 40, as the standard writes it, as NameNotFound; at most 64 bytes. */
uint32_t hla_fault_name(uint32_t fault, uint8_t *bytes, size_t bytes_length, size_t *used);

/* A kind of fault of a FED file, 1 to 9, as UnexpectedEnd; at most 64 bytes. */
uint32_t hla_fed_fault_name(uint32_t kind, uint8_t *bytes, size_t bytes_length, size_t *used);

/* ---- Declaration management ---- */

/* Publish Object Class: from now on the federate may register objects of the class and update these attributes of
 * them, in place of what it published of the class before. There may be no attributes.
 * HLA_OBJECT_CLASS_NOT_DEFINED; HLA_ATTRIBUTE_NOT_DEFINED where one is not available at the class. */
uint32_t hla_publish_object_class(hla_federation *f, uint32_t federate, uint32_t class_, const uint32_t *attributes,
                                  size_t attributes_count);

/* Unpublish Object Class. HLA_OBJECT_CLASS_NOT_DEFINED; HLA_OBJECT_CLASS_NOT_PUBLISHED. */
uint32_t hla_unpublish_object_class(hla_federation *f, uint32_t federate, uint32_t class_);

/* Subscribe Object Class Attributes: from now on the federate discovers objects of the class and is told of updates
 * of these attributes, in place of what it subscribed to of the class before. There may be no attributes.
 * HLA_OBJECT_CLASS_NOT_DEFINED; HLA_ATTRIBUTE_NOT_DEFINED where one is not available at the class. */
uint32_t hla_subscribe_object_class_attributes(hla_federation *f, uint32_t federate, uint32_t class_,
                                               const uint32_t *attributes, size_t attributes_count);

/* Unsubscribe Object Class; what was sent still comes.
 * HLA_OBJECT_CLASS_NOT_DEFINED; HLA_OBJECT_CLASS_NOT_SUBSCRIBED. */
uint32_t hla_unsubscribe_object_class(hla_federation *f, uint32_t federate, uint32_t class_);

/* Publish Interaction Class: from now on the federate may send interactions of the class.
 * HLA_INTERACTION_CLASS_NOT_DEFINED. */
uint32_t hla_publish_interaction_class(hla_federation *f, uint32_t federate, uint32_t class_);

/* Unpublish Interaction Class. HLA_INTERACTION_CLASS_NOT_DEFINED; HLA_INTERACTION_CLASS_NOT_PUBLISHED. */
uint32_t hla_unpublish_interaction_class(hla_federation *f, uint32_t federate, uint32_t class_);

/* Subscribe Interaction Class: from now on the federate receives interactions of the class.
 * HLA_INTERACTION_CLASS_NOT_DEFINED. */
uint32_t hla_subscribe_interaction_class(hla_federation *f, uint32_t federate, uint32_t class_);

/* Unsubscribe Interaction Class; what was sent still comes.
 * HLA_INTERACTION_CLASS_NOT_DEFINED; HLA_INTERACTION_CLASS_NOT_SUBSCRIBED. */
uint32_t hla_unsubscribe_interaction_class(hla_federation *f, uint32_t federate, uint32_t class_);

/* ---- Object management ---- */

/* Register Object Instance: a new object H of a class that the federate publishes, and which it then owns, under the
 * name object-H. Writes H.
 * HLA_OBJECT_CLASS_NOT_DEFINED; HLA_OBJECT_CLASS_NOT_PUBLISHED; HLA_OBJECT_ALREADY_REGISTERED where the name was ever
 * used in the execution; HLA_LIMIT_REACHED where the execution has had 4,096 objects. */
uint32_t hla_register_object_instance(hla_federation *f, uint32_t federate, uint32_t class_, uint32_t *object);

/* The same, under a name of the federate's own of 1 to 255 bytes; HLA_LIMIT_REACHED also where it has another length.
 * */
uint32_t hla_register_named_object_instance(hla_federation *f, uint32_t federate, uint32_t class_, const uint8_t *name,
                                            size_t name_length, uint32_t *object);

/* Update Attribute Values, without a stamp. Where an attribute is named twice, the later value counts. Writes the
 * handle of the message in time-stamp order if there is one: 0 and 0 here. The attributes of each order now make a
 * message of their own.
 * HLA_OBJECT_NOT_KNOWN; HLA_ATTRIBUTE_NOT_DEFINED; HLA_ATTRIBUTE_NOT_OWNED; HLA_ATTRIBUTE_NOT_PUBLISHED;
 * HLA_LIMIT_REACHED after 10^18 messages. */
uint32_t hla_update_attribute_values(hla_federation *f, uint32_t federate, uint32_t object, const hla_value *values,
                                     size_t values_count, const uint8_t *bytes, size_t bytes_length, hla_event *event);

/* The same, with a stamp in ticks: what goes in time-stamp order goes with it where the federate regulates, and else,
 * as what goes in receive order, without. HLA_INVALID_FEDERATION_TIME, before HLA_LIMIT_REACHED, where the stamp is
 * above 10^18, or below the least that a regulating federate may send. */
uint32_t hla_update_attribute_values_at(hla_federation *f, uint32_t federate, uint32_t object, const hla_value *values,
                                        size_t values_count, const uint8_t *bytes, size_t bytes_length, uint64_t stamp,
                                        hla_event *event);

/* Send Interaction, without a stamp. Where a parameter is named twice, the later value counts. Writes the handle of the
 * message if it goes in time-stamp order: 0 and 0 here.
 * HLA_INTERACTION_CLASS_NOT_DEFINED; HLA_INTERACTION_PARAMETER_NOT_DEFINED; HLA_INTERACTION_CLASS_NOT_PUBLISHED;
 * HLA_LIMIT_REACHED after 10^18 messages. */
uint32_t hla_send_interaction(hla_federation *f, uint32_t federate, uint32_t class_, const hla_value *values,
                              size_t values_count, const uint8_t *bytes, size_t bytes_length, hla_event *event);

/* The same, with a stamp in ticks, as hla_update_attribute_values_at. */
uint32_t hla_send_interaction_at(hla_federation *f, uint32_t federate, uint32_t class_, const hla_value *values,
                                 size_t values_count, const uint8_t *bytes, size_t bytes_length, uint64_t stamp,
                                 hla_event *event);

/* Delete Object Instance, of an object that the federate registered. It is gone at once; the others are told at a tick.
 * HLA_OBJECT_NOT_KNOWN; HLA_DELETE_PRIVILEGE_NOT_HELD; HLA_LIMIT_REACHED after 10^18 messages. */
uint32_t hla_delete_object_instance(hla_federation *f, uint32_t federate, uint32_t object);

/* The same, with a stamp in ticks, as hla_update_attribute_values_at; it cannot be retracted. */
uint32_t hla_delete_object_instance_at(hla_federation *f, uint32_t federate, uint32_t object, uint64_t stamp);

/* Change Attribute Order Type: from now on updates of these attributes of just this object go in this order; what was
 * sent before keeps its own. A deletion goes in the order of the attribute privilegeToDelete.
 * HLA_NO_SUCH_NUMBER; HLA_OBJECT_NOT_KNOWN; HLA_ATTRIBUTE_NOT_DEFINED where one is not available at the object's class;
 * HLA_ATTRIBUTE_NOT_OWNED. */
uint32_t hla_change_attribute_order_type(hla_federation *f, uint32_t federate, uint32_t object,
                                         const uint32_t *attributes, size_t attributes_count, uint32_t order);

/* Change Interaction Order Type: from now on the federate's own interactions of just this class go in this order,
 * while it is joined; what was sent before keeps its own.
 * HLA_NO_SUCH_NUMBER; HLA_INTERACTION_CLASS_NOT_DEFINED; HLA_INTERACTION_CLASS_NOT_PUBLISHED. */
uint32_t hla_change_interaction_order_type(hla_federation *f, uint32_t federate, uint32_t class_, uint32_t order);

/* ---- Time management ---- */

/* Retract: takes back a message in time-stamp order, by the handle that its update or send wrote. Who was given it is
 * asked at a tick to take it back.
 * HLA_INVALID_RETRACTION_HANDLE where the federate sent no such message, has retracted it, or may no longer. */
uint32_t hla_retract(hla_federation *f, uint32_t federate, uint32_t sender, uint64_t serial);

/* Enable Time Regulation, from this time on and with this lookahead; a later tick gives the callback that it is
 * enabled.
 * HLA_TIME_ADVANCE_ALREADY_IN_PROGRESS; HLA_TIME_REGULATION_ALREADY_ENABLED; HLA_ENABLE_TIME_REGULATION_PENDING;
 * HLA_INVALID_FEDERATION_TIME where the time is above 10^18, below the federate's, or, of a constrained one, another;
 * HLA_INVALID_LOOKAHEAD where it is above 10^18; HLA_INVALID_FEDERATION_TIME, too, where the federate is not
 * constrained, the lookahead is 0, and it would begin above 10^18 for the bars of others; HLA_LIMIT_REACHED after
 * 10^18 enablings. */
uint32_t hla_enable_time_regulation(hla_federation *f, uint32_t federate, uint64_t time, uint64_t lookahead);

/* Disable Time Regulation. HLA_TIME_REGULATION_WAS_NOT_ENABLED. */
uint32_t hla_disable_time_regulation(hla_federation *f, uint32_t federate);

/* Enable Time Constrained; a later tick gives the callback that it is enabled.
 * HLA_TIME_ADVANCE_ALREADY_IN_PROGRESS; HLA_TIME_CONSTRAINED_ALREADY_ENABLED; HLA_ENABLE_TIME_CONSTRAINED_PENDING. */
uint32_t hla_enable_time_constrained(hla_federation *f, uint32_t federate);

/* Disable Time Constrained. HLA_TIME_ADVANCE_ALREADY_IN_PROGRESS; HLA_TIME_CONSTRAINED_WAS_NOT_ENABLED. */
uint32_t hla_disable_time_constrained(hla_federation *f, uint32_t federate);

/* The five requests to advance; a later tick gives the grant. Each:
 * HLA_TIME_ADVANCE_ALREADY_IN_PROGRESS; HLA_ENABLE_TIME_REGULATION_PENDING; HLA_ENABLE_TIME_CONSTRAINED_PENDING;
 * HLA_INVALID_FEDERATION_TIME where the time is above 10^18; HLA_FEDERATION_TIME_ALREADY_PASSED where it is below the
 * federate's. */

/* Time Advance Request: to this time, when no message of the time or below may still come. */
uint32_t hla_time_advance_request(hla_federation *f, uint32_t federate, uint64_t time);

/* Time Advance Request Available: the same, but messages of the time itself may still come after the grant. */
uint32_t hla_time_advance_request_available(hla_federation *f, uint32_t federate, uint64_t time);

/* Next Event Request: to the stamp of the next message in time-stamp order, at most this time. */
uint32_t hla_next_event_request(hla_federation *f, uint32_t federate, uint64_t time);

/* Next Event Request Available: the same, but messages of the time that is granted may still come after the grant. */
uint32_t hla_next_event_request_available(hla_federation *f, uint32_t federate, uint64_t time);

/* Flush Queue Request: all messages that wait are given, whatever their stamps, and then at most this time is
 * granted. */
uint32_t hla_flush_queue_request(hla_federation *f, uint32_t federate, uint64_t time);

/* Modify Lookahead; a smaller one takes effect as the federate's time advances.
 * HLA_TIME_REGULATION_WAS_NOT_ENABLED; HLA_TIME_ADVANCE_ALREADY_IN_PROGRESS; HLA_INVALID_LOOKAHEAD where it is above
 * 10^18. */
uint32_t hla_modify_lookahead(hla_federation *f, uint32_t federate, uint64_t lookahead);

/* Enable Asynchronous Delivery: a constrained federate is given messages in receive order also while it does not
 * advance.
 * HLA_ASYNCHRONOUS_DELIVERY_ALREADY_ENABLED. */
uint32_t hla_enable_asynchronous_delivery(hla_federation *f, uint32_t federate);

/* Disable Asynchronous Delivery. HLA_ASYNCHRONOUS_DELIVERY_ALREADY_DISABLED. */
uint32_t hla_disable_asynchronous_delivery(hla_federation *f, uint32_t federate);

/* Query LBTS: writes the federate's bound, below which no message in time-stamp order will come, or HLA_FOREVER. */
uint32_t hla_query_lbts(hla_federation *f, uint32_t federate, uint64_t *time);

/* Query Federate Time: writes it. */
uint32_t hla_query_federate_time(hla_federation *f, uint32_t federate, uint64_t *time);

/* Query Minimum Next Event Time: writes the lesser of the bound and the least stamp that waits, or HLA_FOREVER. */
uint32_t hla_query_min_next_event_time(hla_federation *f, uint32_t federate, uint64_t *time);

/* Query Lookahead: writes the lookahead that was set last. */
uint32_t hla_query_lookahead(hla_federation *f, uint32_t federate, uint64_t *time);

/* ---- Support services ---- */

/* Get Object Class Handle and Get Interaction Class Handle, by the class's path or by the end of it: Hit or
 * InteractionRoot.Hit. Each writes its number. HLA_NAME_NOT_FOUND. */
uint32_t hla_get_object_class_handle(hla_federation *f, uint32_t federate, const uint8_t *name, size_t name_length,
                                     uint32_t *number);
uint32_t hla_get_interaction_class_handle(hla_federation *f, uint32_t federate, const uint8_t *name, size_t name_length,
                                          uint32_t *number);

/* Get Attribute Handle, of an attribute that is available at the class. Writes its number.
 * HLA_OBJECT_CLASS_NOT_DEFINED; HLA_NAME_NOT_FOUND. */
uint32_t hla_get_attribute_handle(hla_federation *f, uint32_t federate, const uint8_t *name, size_t name_length,
                                  uint32_t class_, uint32_t *number);

/* Get Parameter Handle, of a parameter that is available at the class. Writes its number.
 * HLA_INTERACTION_CLASS_NOT_DEFINED; HLA_NAME_NOT_FOUND. */
uint32_t hla_get_parameter_handle(hla_federation *f, uint32_t federate, const uint8_t *name, size_t name_length,
                                  uint32_t class_, uint32_t *number);

/* Get Object Instance Handle, of an object that the federate knows. Writes its number. HLA_OBJECT_NOT_KNOWN. */
uint32_t hla_get_object_instance_handle(hla_federation *f, uint32_t federate, const uint8_t *name, size_t name_length,
                                        uint32_t *number);

/* Get Object Instance Name, of an object that the federate knows. Writes its name, at most 255 bytes, and its length
 * to `used`.
 * HLA_OBJECT_NOT_KNOWN; HLA_NO_ROOM where `bytes_length` is less; then `used` alone is written. */
uint32_t hla_get_object_instance_name(hla_federation *f, uint32_t federate, uint32_t object, uint8_t *bytes,
                                      size_t bytes_length, size_t *used);

/* ---- Synchronization points ---- */

/* Register Federation Synchronization Point, under a label of 1 to 64 bytes. A point opens, its members are all who are
 * joined, and each is told so at a tick, the federate first that its registration succeeded. Where one of the label
 * is open the federate is told at a tick that the registration failed, and nothing else happens.
 * HLA_LIMIT_REACHED where the label has another length, or 64 points are open and none has the label. */
uint32_t hla_register_federation_synchronization_point(hla_federation *f, uint32_t federate, const uint8_t *label,
                                                       size_t label_length);

/* Synchronization Point Achieved. When the last member has achieved it, the point closes, each member is told so at a
 * tick, and the label is free again.
 * HLA_SYNCHRONIZATION_POINT_LABEL_WAS_NOT_ANNOUNCED unless a point of the label is open that the federate was told of
 * at a tick and has not achieved. */
uint32_t hla_synchronization_point_achieved(hla_federation *f, uint32_t federate, const uint8_t *label,
                                            size_t label_length);

#ifdef __cplusplus
}
#endif
#endif
