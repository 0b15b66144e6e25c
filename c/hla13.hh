// The C++ interface of HLA 1.3 (DMSO) over hla13.h: header-only, C++17. Executions live in one process; their
// federates may run on threads of their own.
//
// What it is:
//  - Executions have names, and each has a mutex. A service takes it for its call alone. An RTIambassador is used by
//    one thread at a time; different ones may be used side by side. It does not outlive its FederateAmbassador while
//    joined; where it ends without resigning, its federate stays joined.
//  - A callback is made by the thread that ticks and outside the mutex, so that it may call its own RTIambassador;
//    only tick may not be called again from within (ConcurrentAccessAttempted). What a callback throws, tick throws;
//    the callback counts as given.
//  - There is no thread that moves messages. Each tick first takes all that came on the wires to the federate, then
//    announces the federate's promise, and gives at most one callback. Each request to advance announces, too. So a
//    federate that others wait for has to tick: grants come where each federate ticks again and again.
//  - Times are ticks, whole numbers from 0 to 10^18. Handles are numbers from 1 on. Values have at most 1,024 bytes.
//  - Where memory for a copy is refused, std::bad_alloc is thrown; of tick, the callback may then be lost.
//    OutOfMemory, of the execution, leaves all as it was, but for what a tick already carried: call again.
//
// What differs from the standard's interface:
//  - tick() answers whether it gave a callback, not whether there are more.
//  - Names are answered as std::string, and nothing answered is to be deleted but what a factory's create answers.
//  - A message that was sent with a stamp and is given in receive order comes by the callback that has a time; the
//    set's getOrderType tells it from one that is given in time-stamp order.
//  - A deletion answers an event retraction handle that retracts nothing.
//  - subscribe...(.., RTI_FALSE), passive subscription, is the same as active subscription.
//  - User-supplied tags are not carried: what is handed in as theTag is ignored, and callbacks get "".
//  - Executions' names and their number have no limits here.
//
// What is left out:
//  - ownership management; data distribution management (regions, routing spaces); saving and restoring;
//  - sets of federates at synchronization points; Request Attribute Value Update and Provide; Local Delete Object
//    Instance;
//  - Change Transportation Type; transportation and space handles; Get Object Class of an instance;
//  - the advisories (Start Registration, Turn Updates On, .. and their switches); Attributes In/Out Of Scope;
//  - the resign actions that release attributes (InvalidResignAction); the management object model.
#ifndef HLA13_HH
#define HLA13_HH

#include "hla13.h"

#include <chrono>
#include <cstring>
#include <exception>
#include <fstream>
#include <iterator>
#include <map>
#include <memory>
#include <mutex>
#include <string>
#include <thread>
#include <tuple>
#include <utility>
#include <vector>

namespace RTI {

typedef unsigned long ULong;
typedef ULong FederateHandle;
typedef ULong ObjectClassHandle;
typedef ULong InteractionClassHandle;
typedef ULong AttributeHandle;
typedef ULong ParameterHandle;
typedef ULong ObjectHandle;
typedef ULong OrderingHandle;
typedef double TickTime; // seconds of the computer's clock

enum Boolean { RTI_FALSE = 0, RTI_TRUE };
enum OrderType { RECEIVE = HLA_ORDER_RECEIVE, TIMESTAMP = HLA_ORDER_TIME_STAMP };
enum ResignAction {
    RELEASE_ATTRIBUTES = HLA_RELEASE_ATTRIBUTES,
    DELETE_OBJECTS = HLA_DELETE_OBJECTS,
    DELETE_OBJECTS_AND_RELEASE_ATTRIBUTES = HLA_DELETE_OBJECTS_AND_RELEASE_ATTRIBUTES,
    NO_ACTION = HLA_NO_ACTION
};

// ---- Exceptions ----

class Exception : public std::exception {
public:
    Exception(ULong serial, const char *name, const std::string &reason)
        : _serial(serial), _name(name), _reason(reason), whole(_name + ": " + reason)
    {
    }
    const char *what() const noexcept override { return whole.c_str(); }

    ULong _serial; // the number of the fault
    std::string _name;
    std::string _reason;

private:
    std::string whole;
};

// Each fault of an execution, by the number that hla13.h gives it.
#define RTI_FAULTS(X)                                                                                                  \
    X(1, FederationExecutionAlreadyExists)                                                                             \
    X(2, FederationExecutionDoesNotExist)                                                                              \
    X(3, FederatesCurrentlyJoined)                                                                                     \
    X(4, ErrorReadingFED)                                                                                              \
    X(5, FederateAlreadyExecutionMember)                                                                               \
    X(6, FederateNotExecutionMember)                                                                                   \
    X(7, FederateOwnsAttributes)                                                                                       \
    X(8, ObjectClassNotDefined)                                                                                        \
    X(9, AttributeNotDefined)                                                                                          \
    X(10, ObjectClassNotPublished)                                                                                     \
    X(11, AttributeNotPublished)                                                                                       \
    X(12, ObjectClassNotSubscribed)                                                                                    \
    X(13, InteractionClassNotDefined)                                                                                  \
    X(14, InteractionParameterNotDefined)                                                                              \
    X(15, InteractionClassNotPublished)                                                                                \
    X(16, InteractionClassNotSubscribed)                                                                               \
    X(17, ObjectAlreadyRegistered)                                                                                     \
    X(18, ObjectNotKnown)                                                                                              \
    X(19, AttributeNotOwned)                                                                                           \
    X(20, DeletePrivilegeNotHeld)                                                                                      \
    X(21, InvalidFederationTime)                                                                                       \
    X(22, InvalidLookahead)                                                                                            \
    X(23, FederationTimeAlreadyPassed)                                                                                 \
    X(24, TimeAdvanceAlreadyInProgress)                                                                                \
    X(25, TimeRegulationAlreadyEnabled)                                                                                \
    X(26, EnableTimeRegulationPending)                                                                                 \
    X(27, TimeRegulationWasNotEnabled)                                                                                 \
    X(28, TimeConstrainedAlreadyEnabled)                                                                               \
    X(29, EnableTimeConstrainedPending)                                                                                \
    X(30, TimeConstrainedWasNotEnabled)                                                                                \
    X(31, AsynchronousDeliveryAlreadyEnabled)                                                                          \
    X(32, AsynchronousDeliveryAlreadyDisabled)                                                                         \
    X(33, InvalidRetractionHandle)                                                                                     \
    X(34, NameNotFound)                                                                                                \
    X(35, FederateInternalError)                                                                                       \
    X(36, LimitReached)                                                                                                \
    X(37, HistoryFull)                                                                                                 \
    X(38, OutOfMemory)                                                                                                 \
    X(39, InvalidResignAction)                                                                                         \
    X(40, SynchronizationPointLabelWasNotAnnounced)

// Exceptions of the standard that this header throws by itself, and RTIinternalError for each other number.
#define RTI_FAULTS_OF_THE_WRAPPER(X)                                                                                   \
    X(201, CouldNotOpenFED)                                                                                            \
    X(202, ConcurrentAccessAttempted)                                                                                  \
    X(203, ArrayIndexOutOfBounds)                                                                                      \
    X(204, InvalidOrderingHandle)

#define RTI_EXCEPTION(NUMBER, NAME)                                                                                    \
    class NAME : public Exception {                                                                                    \
    public:                                                                                                            \
        explicit NAME(const std::string &reason) : Exception(NUMBER, #NAME, reason) {}                                 \
    };
RTI_FAULTS(RTI_EXCEPTION)
RTI_FAULTS_OF_THE_WRAPPER(RTI_EXCEPTION)

class RTIinternalError : public Exception {
public:
    RTIinternalError(ULong number, const std::string &reason) : Exception(number, "RTIinternalError", reason) {}
};

namespace within {

// Throws the exception of a number that is not 0.
inline void check(uint32_t code, const std::string &reason)
{
#define RTI_THROW(NUMBER, NAME)                                                                                        \
    case NUMBER:                                                                                                       \
        throw NAME(reason);
    switch (code) {
    case 0:
        return;
        RTI_FAULTS(RTI_THROW)
    default:
        throw RTIinternalError(code, reason);
    }
#undef RTI_THROW
}

} // namespace within

#undef RTI_EXCEPTION
#undef RTI_FAULTS_OF_THE_WRAPPER
#undef RTI_FAULTS

// ---- Times and handles ----

// A time, a stamp or a lookahead, in ticks. Sums stop at positive infinity and differences at zero.
class FedTime {
public:
    FedTime(uint64_t ticks = 0) : ticks(ticks) {}

    uint64_t getTime() const { return ticks; }
    void setZero() { ticks = 0; }
    void setPositiveInfinity() { ticks = HLA_FOREVER; }
    Boolean isZero() const { return ticks == 0 ? RTI_TRUE : RTI_FALSE; }
    Boolean isPositiveInfinity() const { return ticks == HLA_FOREVER ? RTI_TRUE : RTI_FALSE; }

    FedTime &operator+=(const FedTime &other)
    {
        ticks = other.ticks > HLA_FOREVER - ticks ? HLA_FOREVER : ticks + other.ticks;
        return *this;
    }
    FedTime &operator-=(const FedTime &other)
    {
        ticks = other.ticks > ticks ? 0 : isPositiveInfinity() ? ticks : ticks - other.ticks;
        return *this;
    }
    friend FedTime operator+(FedTime left, const FedTime &right) { return left += right; }
    friend FedTime operator-(FedTime left, const FedTime &right) { return left -= right; }
    friend bool operator==(const FedTime &left, const FedTime &right) { return left.ticks == right.ticks; }
    friend bool operator!=(const FedTime &left, const FedTime &right) { return left.ticks != right.ticks; }
    friend bool operator<(const FedTime &left, const FedTime &right) { return left.ticks < right.ticks; }
    friend bool operator<=(const FedTime &left, const FedTime &right) { return left.ticks <= right.ticks; }
    friend bool operator>(const FedTime &left, const FedTime &right) { return left.ticks > right.ticks; }
    friend bool operator>=(const FedTime &left, const FedTime &right) { return left.ticks >= right.ticks; }

private:
    uint64_t ticks;
};

// A message in time-stamp order; both are 0 where there is none.
struct EventRetractionHandle {
    uint64_t theSerialNumber = 0;
    FederateHandle sendingFederate = 0;
};

// ---- Sets ----

// Attributes, each once, in the order in which they were added.
class AttributeHandleSet {
public:
    ULong size() const { return handles.size(); }
    AttributeHandle getHandle(ULong i) const { return handles.at(place(i)); }
    void add(AttributeHandle handle)
    {
        if (!isMember(handle))
            handles.push_back(handle > UINT32_MAX ? 0 : static_cast<uint32_t>(handle));
    }
    void remove(AttributeHandle handle)
    {
        for (size_t i = handles.size(); i > 0; i--)
            if (handles[i - 1] == handle)
                handles.erase(handles.begin() + static_cast<std::ptrdiff_t>(i - 1));
    }
    void empty() { handles.clear(); }
    Boolean isEmpty() const { return handles.empty() ? RTI_TRUE : RTI_FALSE; }
    Boolean isMember(AttributeHandle handle) const
    {
        for (uint32_t own : handles)
            if (own == handle)
                return RTI_TRUE;
        return RTI_FALSE;
    }

private:
    friend class RTIambassador;
    size_t place(ULong i) const
    {
        if (i >= handles.size())
            throw ArrayIndexOutOfBounds("AttributeHandleSet");
        return i;
    }
    std::vector<uint32_t> handles;
};

// Values by handle, in the order in which they were added. A handle may be named twice: then the later value counts.
class HandleValuePairSet {
public:
    ULong size() const { return heads.size(); }
    void add(ULong handle, const char *value, ULong length)
    {
        const uint8_t *first = reinterpret_cast<const uint8_t *>(value);
        heads.push_back({ handle > UINT32_MAX ? 0 : static_cast<uint32_t>(handle), length });
        starts.push_back(bytes.size());
        bytes.insert(bytes.end(), first, first + length);
    }
    void empty()
    {
        heads.clear();
        starts.clear();
        bytes.clear();
    }
    ULong getHandle(ULong i) const { return heads.at(place(i)).handle; }
    ULong getValueLength(ULong i) const { return heads.at(place(i)).length; }
    // Copies the value to a buffer with room for getValueLength(i) bytes.
    void getValue(ULong i, char *buffer, ULong &length) const
    {
        length = getValueLength(i);
        if (length > 0)
            std::memcpy(buffer, bytes.data() + starts.at(i), length);
    }
    // The value where it lies, until the set changes.
    const char *getValuePointer(ULong i, ULong &length) const
    {
        length = getValueLength(i);
        return length == 0 ? "" : reinterpret_cast<const char *>(bytes.data()) + starts.at(i);
    }
    std::string text(ULong i) const
    {
        ULong length = 0;
        const char *value = getValuePointer(i, length);
        return std::string(value, length);
    }
    // The order in which a set that was received was given.
    OrderType getOrderType(ULong i) const
    {
        place(i);
        return order;
    }

private:
    friend class RTIambassador;
    size_t place(ULong i) const
    {
        if (i >= heads.size())
            throw ArrayIndexOutOfBounds("HandleValuePairSet");
        return i;
    }
    std::vector<hla_value> heads;
    std::vector<size_t> starts;
    std::vector<uint8_t> bytes;
    OrderType order = RECEIVE;
};

class AttributeHandleValuePairSet : public HandleValuePairSet {};
class ParameterHandleValuePairSet : public HandleValuePairSet {};

// The standard's ways to make sets; the caller deletes them. Sets of one's own need no factory.
struct AttributeHandleSetFactory {
    static AttributeHandleSet *create(ULong) { return new AttributeHandleSet; }
};
struct AttributeSetFactory {
    static AttributeHandleValuePairSet *create(ULong) { return new AttributeHandleValuePairSet; }
};
struct ParameterSetFactory {
    static ParameterHandleValuePairSet *create(ULong) { return new ParameterHandleValuePairSet; }
};

// ---- The federate's side ----

// What a federate is told; override what it wants to hear. Tags are always "".
class FederateAmbassador {
public:
    virtual ~FederateAmbassador() {}

    virtual void synchronizationPointRegistrationSucceeded(const char * /* label */) {}
    virtual void synchronizationPointRegistrationFailed(const char * /* label */) {}
    virtual void announceSynchronizationPoint(const char * /* label */, const char * /* tag */) {}
    virtual void federationSynchronized(const char * /* label */) {}

    virtual void discoverObjectInstance(ObjectHandle, ObjectClassHandle, const char * /* name */) {}
    virtual void reflectAttributeValues(ObjectHandle, const AttributeHandleValuePairSet &, const FedTime &,
                                        const char * /* tag */, EventRetractionHandle)
    {
    }
    virtual void reflectAttributeValues(ObjectHandle, const AttributeHandleValuePairSet &, const char * /* tag */) {}
    virtual void receiveInteraction(InteractionClassHandle, const ParameterHandleValuePairSet &, const FedTime &,
                                    const char * /* tag */, EventRetractionHandle)
    {
    }
    virtual void receiveInteraction(InteractionClassHandle, const ParameterHandleValuePairSet &, const char * /* tag */)
    {
    }
    virtual void removeObjectInstance(ObjectHandle, const FedTime &, const char * /* tag */, EventRetractionHandle) {}
    virtual void removeObjectInstance(ObjectHandle, const char * /* tag */) {}

    virtual void timeRegulationEnabled(const FedTime &) {}
    virtual void timeConstrainedEnabled(const FedTime &) {}
    virtual void timeAdvanceGrant(const FedTime &) {}
    virtual void requestRetraction(EventRetractionHandle) {}
};
typedef FederateAmbassador NullFederateAmbassador;

// ---- Executions by name ----

namespace within {

inline const uint8_t *octets(const std::string &text)
{
    return reinterpret_cast<const uint8_t *>(text.data());
}

// No pointer that is handed to a call may be null, and that of an empty vector may be.
template <class T> T *some(std::vector<T> &items)
{
    if (items.empty())
        items.reserve(1);
    return items.data();
}
template <class T> const T *some(const std::vector<T> &items)
{
    static const T none{};
    return items.empty() ? &none : items.data();
}

// An execution with the mutex that puts the calls on it in an order. One that was adopted is closed by who opened it.
class Execution {
public:
    Execution() : federation(&own) {}
    explicit Execution(hla_federation *adopted) : federation(adopted) {}
    Execution(const Execution &) = delete;
    Execution &operator=(const Execution &) = delete;
    ~Execution() { hla_close(&own); }

    std::mutex lock;
    hla_federation *federation;
    ULong joined = 0;
    bool is_destroyed = false; // seen by who found it by its name before

private:
    hla_federation own = HLA_CLOSED;
};

struct Executions {
    std::mutex lock;
    std::map<std::string, std::shared_ptr<Execution>> by_name;
};
inline Executions &executions()
{
    static Executions all;
    return all;
}

inline void add(const std::string &name, const std::shared_ptr<Execution> &made)
{
    std::lock_guard<std::mutex> hold(executions().lock);
    if (!executions().by_name.emplace(name, made).second)
        throw FederationExecutionAlreadyExists(name);
}

inline std::shared_ptr<Execution> find(const std::string &name)
{
    std::lock_guard<std::mutex> hold(executions().lock);
    auto at = executions().by_name.find(name);
    if (at == executions().by_name.end())
        throw FederationExecutionDoesNotExist(name);
    return at->second;
}

inline void open(hla_federation *federation, const std::string &fed)
{
    hla_fed_fault fault = { 0, 0 };
    uint32_t code = hla_open(federation, octets(fed), fed.size(), &fault);
    uint8_t kind[64] = { 0 };
    size_t used = 0;
    if (code != HLA_ERROR_READING_FED)
        check(code, "createFederationExecution");
    else if (hla_fed_fault_name(fault.kind, kind, sizeof kind, &used) == 0)
        throw ErrorReadingFED("line " + std::to_string(fault.line) + ": " + std::string(kind, kind + used));
    else
        throw ErrorReadingFED("line " + std::to_string(fault.line));
}

} // namespace within

// Creates an execution from the text of a FED file, and not from its name.
inline void createFederationExecutionFromText(const char *name, const std::string &fed)
{
    std::shared_ptr<within::Execution> made = std::make_shared<within::Execution>();
    within::open(made->federation, fed);
    within::add(name, made);
}

// Gives a name to a federation that was opened by a call of hla13.h, so that federates of this header can join it.
// Who opened it closes it, after the execution was destroyed here. The mutex is this header's alone: who calls on the
// federation without it has to see to it that calls follow one another.
inline void adoptFederationExecution(const char *name, hla_federation *opened)
{
    within::add(name, std::make_shared<within::Execution>(opened));
}

// ---- The infrastructure's side ----

class RTIambassador {
public:
    RTIambassador() {}
    RTIambassador(const RTIambassador &) = delete;
    RTIambassador &operator=(const RTIambassador &) = delete;

    // -- Federation management --

    // FED is the name of a file. CouldNotOpenFED; ErrorReadingFED, with the line and the kind of the fault.
    void createFederationExecution(const char *executionName, const char *FED)
    {
        std::ifstream file(FED, std::ios::binary);
        if (!file)
            throw CouldNotOpenFED(FED);
        std::string text((std::istreambuf_iterator<char>(file)), std::istreambuf_iterator<char>());
        createFederationExecutionFromText(executionName, text);
    }

    void destroyFederationExecution(const char *executionName)
    {
        std::shared_ptr<within::Execution> gone; // let go last, behind its mutex
        std::lock_guard<std::mutex> hold(within::executions().lock);
        auto at = within::executions().by_name.find(executionName);
        if (at == within::executions().by_name.end())
            throw FederationExecutionDoesNotExist(executionName);
        gone = at->second;
        std::lock_guard<std::mutex> one(gone->lock);
        if (gone->joined > 0)
            throw FederatesCurrentlyJoined(executionName);
        gone->is_destroyed = true;
        within::executions().by_name.erase(at);
    }

    // FederateAlreadyExecutionMember also where this RTIambassador has joined an execution.
    FederateHandle joinFederationExecution(const char *yourName, const char *executionName,
                                           FederateAmbassador *federateAmbassador)
    {
        if (mine)
            throw FederateAlreadyExecutionMember("this RTIambassador has joined");
        std::shared_ptr<within::Execution> found = within::find(executionName);
        std::lock_guard<std::mutex> hold(found->lock);
        if (found->is_destroyed)
            throw FederationExecutionDoesNotExist(executionName);
        std::string name = yourName;
        within::check(hla_join_federation_execution(found->federation, within::octets(name), name.size(), &number),
                      "joinFederationExecution");
        found->joined++;
        mine = found;
        callbacks = federateAmbassador;
        return number;
    }

    void resignFederationExecution(ResignAction theAction)
    {
        std::shared_ptr<within::Execution> left = execution();
        std::lock_guard<std::mutex> hold(left->lock);
        uint32_t code = hla_resign_federation_execution(left->federation, number, theAction);
        within::check(code == HLA_NO_SUCH_NUMBER ? uint32_t(HLA_INVALID_RESIGN_ACTION) : code,
                      "resignFederationExecution");
        left->joined--;
        mine.reset();
    }

    void registerFederationSynchronizationPoint(const char *label, const char * /* theTag */)
    {
        call("registerFederationSynchronizationPoint", hla_register_federation_synchronization_point, Text(label));
    }
    void synchronizationPointAchieved(const char *label)
    {
        call("synchronizationPointAchieved", hla_synchronization_point_achieved, Text(label));
    }

    // -- Declaration management --

    void publishObjectClass(ObjectClassHandle theClass, const AttributeHandleSet &attributeList)
    {
        call("publishObjectClass", hla_publish_object_class, narrow(theClass), attributeList);
    }
    void unpublishObjectClass(ObjectClassHandle theClass)
    {
        call("unpublishObjectClass", hla_unpublish_object_class, narrow(theClass));
    }
    void publishInteractionClass(InteractionClassHandle theClass)
    {
        call("publishInteractionClass", hla_publish_interaction_class, narrow(theClass));
    }
    void unpublishInteractionClass(InteractionClassHandle theClass)
    {
        call("unpublishInteractionClass", hla_unpublish_interaction_class, narrow(theClass));
    }
    void subscribeObjectClassAttributes(ObjectClassHandle theClass, const AttributeHandleSet &attributeList,
                                        Boolean /* active */ = RTI_TRUE)
    {
        call("subscribeObjectClassAttributes", hla_subscribe_object_class_attributes, narrow(theClass), attributeList);
    }
    void unsubscribeObjectClass(ObjectClassHandle theClass)
    {
        call("unsubscribeObjectClass", hla_unsubscribe_object_class, narrow(theClass));
    }
    void subscribeInteractionClass(InteractionClassHandle theClass, Boolean /* active */ = RTI_TRUE)
    {
        call("subscribeInteractionClass", hla_subscribe_interaction_class, narrow(theClass));
    }
    void unsubscribeInteractionClass(InteractionClassHandle theClass)
    {
        call("unsubscribeInteractionClass", hla_unsubscribe_interaction_class, narrow(theClass));
    }

    // -- Object management --

    ObjectHandle registerObjectInstance(ObjectClassHandle theClass)
    {
        uint32_t object = 0;
        call("registerObjectInstance", hla_register_object_instance, narrow(theClass), &object);
        return object;
    }
    ObjectHandle registerObjectInstance(ObjectClassHandle theClass, const char *theObject)
    {
        uint32_t object = 0;
        call("registerObjectInstance", hla_register_named_object_instance, narrow(theClass), Text(theObject), &object);
        return object;
    }
    EventRetractionHandle updateAttributeValues(ObjectHandle theObject,
                                                const AttributeHandleValuePairSet &theAttributes,
                                                const FedTime &theTime, const char * /* theTag */)
    {
        hla_event event = { 0, 0 };
        call("updateAttributeValues", hla_update_attribute_values_at, narrow(theObject), theAttributes,
             theTime.getTime(), &event);
        return retraction(event);
    }
    void updateAttributeValues(ObjectHandle theObject, const AttributeHandleValuePairSet &theAttributes,
                               const char * /* theTag */)
    {
        hla_event event = { 0, 0 };
        call("updateAttributeValues", hla_update_attribute_values, narrow(theObject), theAttributes, &event);
    }
    EventRetractionHandle sendInteraction(InteractionClassHandle theInteraction,
                                          const ParameterHandleValuePairSet &theParameters, const FedTime &theTime,
                                          const char * /* theTag */)
    {
        hla_event event = { 0, 0 };
        call("sendInteraction", hla_send_interaction_at, narrow(theInteraction), theParameters, theTime.getTime(),
             &event);
        return retraction(event);
    }
    void sendInteraction(InteractionClassHandle theInteraction, const ParameterHandleValuePairSet &theParameters,
                         const char * /* theTag */)
    {
        hla_event event = { 0, 0 };
        call("sendInteraction", hla_send_interaction, narrow(theInteraction), theParameters, &event);
    }
    EventRetractionHandle deleteObjectInstance(ObjectHandle theObject, const FedTime &theTime,
                                               const char * /* theTag */)
    {
        call("deleteObjectInstance", hla_delete_object_instance_at, narrow(theObject), theTime.getTime());
        return EventRetractionHandle();
    }
    void deleteObjectInstance(ObjectHandle theObject, const char * /* theTag */)
    {
        call("deleteObjectInstance", hla_delete_object_instance, narrow(theObject));
    }
    void changeAttributeOrderType(ObjectHandle theObject, const AttributeHandleSet &theAttributes,
                                  OrderingHandle theType)
    {
        ordered(theType);
        call("changeAttributeOrderType", hla_change_attribute_order_type, narrow(theObject), theAttributes,
             narrow(theType));
    }
    void changeInteractionOrderType(InteractionClassHandle theClass, OrderingHandle theType)
    {
        ordered(theType);
        call("changeInteractionOrderType", hla_change_interaction_order_type, narrow(theClass), narrow(theType));
    }

    // -- Time management --

    void enableTimeRegulation(const FedTime &theFederateTime, const FedTime &theLookahead)
    {
        request("enableTimeRegulation", hla_enable_time_regulation, theFederateTime.getTime(), theLookahead.getTime());
    }
    void disableTimeRegulation() { request("disableTimeRegulation", hla_disable_time_regulation); }
    void enableTimeConstrained() { request("enableTimeConstrained", hla_enable_time_constrained); }
    void disableTimeConstrained() { request("disableTimeConstrained", hla_disable_time_constrained); }
    void timeAdvanceRequest(const FedTime &theTime)
    {
        request("timeAdvanceRequest", hla_time_advance_request, theTime.getTime());
    }
    void timeAdvanceRequestAvailable(const FedTime &theTime)
    {
        request("timeAdvanceRequestAvailable", hla_time_advance_request_available, theTime.getTime());
    }
    void nextEventRequest(const FedTime &theTime)
    {
        request("nextEventRequest", hla_next_event_request, theTime.getTime());
    }
    void nextEventRequestAvailable(const FedTime &theTime)
    {
        request("nextEventRequestAvailable", hla_next_event_request_available, theTime.getTime());
    }
    void flushQueueRequest(const FedTime &theTime)
    {
        request("flushQueueRequest", hla_flush_queue_request, theTime.getTime());
    }
    void modifyLookahead(const FedTime &theLookahead)
    {
        request("modifyLookahead", hla_modify_lookahead, theLookahead.getTime());
    }
    void enableAsynchronousDelivery() { call("enableAsynchronousDelivery", hla_enable_asynchronous_delivery); }
    void disableAsynchronousDelivery() { call("disableAsynchronousDelivery", hla_disable_asynchronous_delivery); }
    void queryLBTS(FedTime &theTime) { theTime = time("queryLBTS", hla_query_lbts); }
    void queryFederateTime(FedTime &theTime) { theTime = time("queryFederateTime", hla_query_federate_time); }
    void queryMinNextEventTime(FedTime &theTime)
    {
        theTime = time("queryMinNextEventTime", hla_query_min_next_event_time);
    }
    void queryLookahead(FedTime &theTime) { theTime = time("queryLookahead", hla_query_lookahead); }
    void retract(EventRetractionHandle theHandle)
    {
        call("retract", hla_retract, narrow(theHandle.sendingFederate), theHandle.theSerialNumber);
    }

    // -- Support services --

    ObjectClassHandle getObjectClassHandle(const char *theName)
    {
        return handle("getObjectClassHandle", hla_get_object_class_handle, Text(theName));
    }
    std::string getObjectClassName(ObjectClassHandle theHandle)
    {
        std::string name = text("getObjectClassName", hla_object_class_name, narrow(theHandle));
        if (name.empty())
            throw ObjectClassNotDefined("getObjectClassName");
        return name;
    }
    AttributeHandle getAttributeHandle(const char *theName, ObjectClassHandle whichClass)
    {
        return handle("getAttributeHandle", hla_get_attribute_handle, Text(theName), narrow(whichClass));
    }
    std::string getAttributeName(AttributeHandle theHandle, ObjectClassHandle whichClass)
    {
        std::string name = text("getAttributeName", hla_attribute_name, narrow(theHandle));
        try {
            if (!name.empty() && getAttributeHandle(name.c_str(), whichClass) == theHandle)
                return name;
        } catch (const NameNotFound &) {
        }
        throw AttributeNotDefined("getAttributeName");
    }
    InteractionClassHandle getInteractionClassHandle(const char *theName)
    {
        return handle("getInteractionClassHandle", hla_get_interaction_class_handle, Text(theName));
    }
    std::string getInteractionClassName(InteractionClassHandle theHandle)
    {
        std::string name = text("getInteractionClassName", hla_interaction_class_name, narrow(theHandle));
        if (name.empty())
            throw InteractionClassNotDefined("getInteractionClassName");
        return name;
    }
    ParameterHandle getParameterHandle(const char *theName, InteractionClassHandle whichClass)
    {
        return handle("getParameterHandle", hla_get_parameter_handle, Text(theName), narrow(whichClass));
    }
    std::string getParameterName(ParameterHandle theHandle, InteractionClassHandle whichClass)
    {
        std::string name = text("getParameterName", hla_parameter_name, narrow(theHandle));
        try {
            if (!name.empty() && getParameterHandle(name.c_str(), whichClass) == theHandle)
                return name;
        } catch (const NameNotFound &) {
        }
        throw InteractionParameterNotDefined("getParameterName");
    }
    ObjectHandle getObjectInstanceHandle(const char *theName)
    {
        return handle("getObjectInstanceHandle", hla_get_object_instance_handle, Text(theName));
    }
    std::string getObjectInstanceName(ObjectHandle theHandle)
    {
        return text("getObjectInstanceName", hla_get_object_instance_name, number, narrow(theHandle));
    }
    OrderingHandle getOrderingHandle(const char *theName)
    {
        std::string name = theName;
        if (name != "receive" && name != "timestamp")
            throw NameNotFound(name);
        return name == "receive" ? RECEIVE : TIMESTAMP;
    }
    std::string getOrderingName(OrderingHandle theHandle)
    {
        ordered(theHandle);
        return theHandle == RECEIVE ? "receive" : "timestamp";
    }

    // -- Callbacks --

    // Takes all that came to the federate, announces its promise, and gives at most one callback; answers whether it
    // gave one.
    Boolean tick()
    {
        if (is_ticking)
            throw ConcurrentAccessAttempted("tick");
        Given given = pick();
        if (given.callback.kind == HLA_NO_CALLBACK)
            return RTI_FALSE;
        struct Ticking { // also where the callback throws
            bool &flag;
            explicit Ticking(bool &flag) : flag(flag) { flag = true; }
            ~Ticking() { flag = false; }
        } ticking(is_ticking);
        give(*callbacks, given);
        return RTI_TRUE;
    }

    // Gives callbacks for at least `minimum` seconds, and then until there are none, or `maximum` seconds are over.
    // Answers RTI_TRUE where there may be more.
    Boolean tick(TickTime minimum, TickTime maximum)
    {
        auto start = std::chrono::steady_clock::now();
        for (;;) {
            bool gave = tick() == RTI_TRUE;
            double passed = std::chrono::duration<double>(std::chrono::steady_clock::now() - start).count();
            if (!gave && passed >= minimum)
                return RTI_FALSE;
            if (passed >= maximum)
                return RTI_TRUE;
            if (!gave)
                std::this_thread::yield();
        }
    }

private:
    // A callback with its values and its text.
    struct Given {
        hla_callback callback;
        AttributeHandleValuePairSet attributes;
        ParameterHandleValuePairSet parameters;
        std::string text;
    };
    struct Text {
        explicit Text(const char *text) : bytes(text) {}
        std::string bytes;
    };

    static uint32_t narrow(ULong handle) { return handle > UINT32_MAX ? 0 : static_cast<uint32_t>(handle); }
    static void ordered(OrderingHandle order)
    {
        if (order != RECEIVE && order != TIMESTAMP)
            throw InvalidOrderingHandle("neither receive nor timestamp");
    }
    static EventRetractionHandle retraction(const hla_event &event)
    {
        EventRetractionHandle handle;
        handle.theSerialNumber = event.serial;
        handle.sendingFederate = event.sender;
        return handle;
    }

    const std::shared_ptr<within::Execution> &execution() const
    {
        if (!mine)
            throw FederateNotExecutionMember("this RTIambassador has not joined");
        return mine;
    }

    // What an argument is for a call of hla13.h, as a tuple of its items.
    static std::tuple<uint32_t> items(uint32_t item) { return std::make_tuple(item); }
    static std::tuple<uint64_t> items(uint64_t item) { return std::make_tuple(item); }
    template <class T> static std::tuple<T *> items(T *item) { return std::make_tuple(item); }
    static std::tuple<const uint8_t *, size_t> items(const Text &text)
    {
        return std::make_tuple(within::octets(text.bytes), text.bytes.size());
    }
    static std::tuple<const uint32_t *, size_t> items(const AttributeHandleSet &set)
    {
        return std::make_tuple(within::some(set.handles), set.handles.size());
    }
    static std::tuple<const hla_value *, size_t, const uint8_t *, size_t> items(const HandleValuePairSet &set)
    {
        return std::make_tuple(within::some(set.heads), set.heads.size(), within::some(set.bytes), set.bytes.size());
    }

    // A call of hla13.h; the mutex is held.
    template <class Function, class... Arguments> uint32_t make(Function function, const Arguments &...arguments)
    {
        return std::apply(function, std::tuple_cat(std::make_tuple(mine->federation), items(arguments)...));
    }

    // A service of this federate.
    template <class Function, class... Arguments>
    void call(const char *service, Function function, const Arguments &...arguments)
    {
        std::lock_guard<std::mutex> hold(execution()->lock);
        within::check(make(function, number, arguments...), service);
    }

    // A service after which there may be more to promise. Where memory for the announcement is refused, the next tick
    // makes it.
    template <class Function, class... Arguments>
    void request(const char *service, Function function, const Arguments &...arguments)
    {
        uint64_t promise = 0;
        std::lock_guard<std::mutex> hold(execution()->lock);
        within::check(make(function, number, arguments...), service);
        hla_announce(mine->federation, number, &promise);
    }

    template <class Function> FedTime time(const char *service, Function function)
    {
        uint64_t answered = 0;
        call(service, function, &answered);
        return FedTime(answered);
    }

    template <class Function, class... Arguments>
    ULong handle(const char *service, Function function, const Arguments &...arguments)
    {
        uint32_t answered = 0;
        call(service, function, arguments..., &answered);
        return answered;
    }

    template <class Function, class... Arguments>
    std::string text(const char *service, Function function, const Arguments &...arguments)
    {
        std::lock_guard<std::mutex> hold(execution()->lock);
        return written(service, function, arguments...);
    }

    // A text that a call writes; the mutex is held. It is called again where the text has no room.
    template <class Function, class... Arguments>
    std::string written(const char *service, Function function, const Arguments &...arguments)
    {
        std::vector<uint8_t> bytes(256);
        size_t used = 0;
        uint32_t code = make(function, arguments..., bytes.data(), static_cast<uint64_t>(bytes.size()), &used);
        if (code == HLA_NO_ROOM) {
            bytes.resize(used);
            code = make(function, arguments..., bytes.data(), static_cast<uint64_t>(bytes.size()), &used);
        }
        within::check(code, service);
        return std::string(bytes.data(), bytes.data() + used);
    }

    // Takes all that came on the wires to this federate; the mutex is held. Numbers are given from 1 on without a
    // gap, and the wires of those that resigned still hold what they sent.
    void carry()
    {
        for (uint32_t from = 1;; from++) {
            hla_carried carried = { 0, 0, 0, 0, 0 };
            uint32_t code = 0;
            if (from == number)
                continue;
            do
                code = hla_carry(mine->federation, from, number, &carried);
            while (code == 0 && carried.kind != HLA_CARRIED_NOTHING);
            if (code == HLA_FEDERATE_NOT_EXECUTION_MEMBER)
                return;
            within::check(code, "tick");
        }
    }

    // Picks up a callback with its values and its text.
    Given pick()
    {
        Given given = {};
        uint64_t promise = 0;
        std::lock_guard<std::mutex> hold(execution()->lock);
        carry();
        within::check(hla_announce(mine->federation, number, &promise), "tick");
        within::check(hla_tick(mine->federation, number, &given.callback), "tick");
        if (given.callback.kind == HLA_REFLECT_ATTRIBUTE_VALUES)
            pick_values(given.callback, given.attributes);
        else if (given.callback.kind == HLA_RECEIVE_INTERACTION)
            pick_values(given.callback, given.parameters);
        else if (given.callback.bytes > 0)
            given.text = written("tick", hla_callback_name);
        return given;
    }

    void pick_values(const hla_callback &callback, HandleValuePairSet &set)
    {
        set.heads.resize(callback.values);
        set.bytes.resize(callback.bytes);
        within::check(hla_callback_values(mine->federation, within::some(set.heads), set.heads.size(),
                                          within::some(set.bytes), set.bytes.size()),
                      "tick");
        size_t start = 0;
        for (const hla_value &head : set.heads) {
            set.starts.push_back(start);
            start += head.length;
        }
        set.order = callback.delivery == HLA_DELIVERY_TIME_STAMP ? TIMESTAMP : RECEIVE;
    }

    static void give(FederateAmbassador &to, const Given &given)
    {
        const hla_callback &callback = given.callback;
        switch (callback.kind) {
        case HLA_REFLECT_ATTRIBUTE_VALUES:
        case HLA_RECEIVE_INTERACTION:
        case HLA_REMOVE_OBJECT_INSTANCE:
            return give_message(to, given);
        case HLA_DISCOVER_OBJECT_INSTANCE:
            return to.discoverObjectInstance(callback.object, callback.class_, given.text.c_str());
        case HLA_TIME_REGULATION_ENABLED:
            return to.timeRegulationEnabled(callback.time);
        case HLA_TIME_CONSTRAINED_ENABLED:
            return to.timeConstrainedEnabled(callback.time);
        case HLA_TIME_ADVANCE_GRANT:
            return to.timeAdvanceGrant(callback.time);
        case HLA_REQUEST_RETRACTION:
            return to.requestRetraction(retraction({ callback.sender, callback.serial }));
        case HLA_SYNCHRONIZATION_POINT_REGISTRATION_SUCCEEDED:
            return to.synchronizationPointRegistrationSucceeded(given.text.c_str());
        case HLA_SYNCHRONIZATION_POINT_REGISTRATION_FAILED:
            return to.synchronizationPointRegistrationFailed(given.text.c_str());
        case HLA_ANNOUNCE_SYNCHRONIZATION_POINT:
            return to.announceSynchronizationPoint(given.text.c_str(), "");
        case HLA_FEDERATION_SYNCHRONIZED:
            return to.federationSynchronized(given.text.c_str());
        }
    }

    // A message by the callback that has a time, where it was sent in time-stamp order.
    static void give_message(FederateAmbassador &to, const Given &given)
    {
        const hla_callback &callback = given.callback;
        bool has_time = callback.delivery != HLA_DELIVERY_RECEIVE;
        FedTime stamp = callback.stamp;
        EventRetractionHandle event = retraction({ callback.sender, callback.serial });
        if (callback.kind == HLA_REFLECT_ATTRIBUTE_VALUES && has_time)
            to.reflectAttributeValues(callback.object, given.attributes, stamp, "", event);
        else if (callback.kind == HLA_REFLECT_ATTRIBUTE_VALUES)
            to.reflectAttributeValues(callback.object, given.attributes, "");
        else if (callback.kind == HLA_RECEIVE_INTERACTION && has_time)
            to.receiveInteraction(callback.class_, given.parameters, stamp, "", event);
        else if (callback.kind == HLA_RECEIVE_INTERACTION)
            to.receiveInteraction(callback.class_, given.parameters, "");
        else if (has_time)
            to.removeObjectInstance(callback.object, stamp, "", event);
        else
            to.removeObjectInstance(callback.object, "");
    }

    std::shared_ptr<within::Execution> mine;
    uint32_t number = 0;
    FederateAmbassador *callbacks = nullptr;
    bool is_ticking = false;
};

} // namespace RTI

typedef RTI::FedTime RTIfedTime;

#endif
