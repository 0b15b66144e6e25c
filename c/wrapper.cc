// Tries what the examples do not of hla13.hh: objects, retraction, orders, exceptions, names and the misuse that the
// wrapper itself refuses. Prints the same as wrapper.py. Usage: wrapper FED
#include "hla13.hh"

#include <cstdio>
#include <string>

static std::string name_of(const RTI::FedTime &time)
{
    return time.isPositiveInfinity() ? "forever" : std::to_string(time.getTime());
}

static void say(const std::string &what)
{
    std::printf("%s\n", what.c_str());
}

// Says the exception that an act throws.
template <class Act> static void refused(const char *what, Act act)
{
    try {
        act();
        say(std::string(what) + ": done");
    } catch (const RTI::Exception &failure) {
        say(std::string(what) + ": " + failure._name);
    }
}

class Federate : public RTI::FederateAmbassador {
public:
    explicit Federate(const char *name) : name(name) {}

    // Ticks until nothing is given.
    void hear()
    {
        while (rti.tick() == RTI::RTI_TRUE)
            continue;
    }

    std::string name;
    RTI::RTIambassador rti;

private:
    void told(const std::string &what) { say(name + ": " + what); }
    static const char *order(const RTI::HandleValuePairSet &values)
    {
        return values.size() > 0 && values.getOrderType(0) == RTI::TIMESTAMP ? "TSO" : "RO";
    }

    void discoverObjectInstance(RTI::ObjectHandle object, RTI::ObjectClassHandle theClass, const char *text) override
    {
        told("discover " + rti.getObjectClassName(theClass) + " " + text + " " + rti.getObjectInstanceName(object));
    }
    void reflectAttributeValues(RTI::ObjectHandle object, const RTI::AttributeHandleValuePairSet &values,
                                const char *) override
    {
        told("reflect " + std::to_string(object) + " " + values.text(0) + " " + order(values));
    }
    void reflectAttributeValues(RTI::ObjectHandle object, const RTI::AttributeHandleValuePairSet &values,
                                const RTI::FedTime &time, const char *, RTI::EventRetractionHandle) override
    {
        told("reflect " + std::to_string(object) + " " + values.text(0) + " " + order(values) + " " +
             name_of(time));
    }
    void receiveInteraction(RTI::InteractionClassHandle, const RTI::ParameterHandleValuePairSet &values,
                            const char *) override
    {
        told("receive " + std::to_string(values.size()) + " " + order(values));
        refused("tick in a callback", [this] { rti.tick(); });
    }
    void receiveInteraction(RTI::InteractionClassHandle, const RTI::ParameterHandleValuePairSet &values,
                            const RTI::FedTime &time, const char *, RTI::EventRetractionHandle) override
    {
        told("receive " + std::to_string(values.size()) + " " + order(values) + " " + name_of(time));
    }
    void removeObjectInstance(RTI::ObjectHandle, const char *) override { told("remove"); }
    void removeObjectInstance(RTI::ObjectHandle, const RTI::FedTime &time, const char *,
                              RTI::EventRetractionHandle) override
    {
        told("remove " + name_of(time));
    }
    void timeRegulationEnabled(const RTI::FedTime &time) override { told("regulating " + name_of(time)); }
    void timeConstrainedEnabled(const RTI::FedTime &time) override { told("constrained " + name_of(time)); }
    void timeAdvanceGrant(const RTI::FedTime &time) override { told("granted " + name_of(time)); }
    void requestRetraction(RTI::EventRetractionHandle) override { told("take back"); }
    void synchronizationPointRegistrationSucceeded(const char *label) override
    {
        told(std::string("registered ") + label);
    }
    void synchronizationPointRegistrationFailed(const char *label) override
    {
        told(std::string("not registered ") + label);
    }
    void announceSynchronizationPoint(const char *label, const char *) override
    {
        told(std::string("announced ") + label);
    }
    void federationSynchronized(const char *label) override { told(std::string("synchronized ") + label); }
};

static void before_joining(const char *fed, Federate &a)
{
    a.rti.createFederationExecution("Wrapper", fed);
    refused("create again", [&] { a.rti.createFederationExecution("Wrapper", fed); });
    refused("create without a file", [&] { a.rti.createFederationExecution("Other", "no-such-file"); });
    refused("create from a broken text", [] { RTI::createFederationExecutionFromText("Other", "(FED"); });
    refused("destroy what is not there", [&] { a.rti.destroyFederationExecution("Other"); });
    refused("join what is not there", [&] { a.rti.joinFederationExecution("A", "Other", &a); });
    refused("publish before joining", [&] { a.rti.publishInteractionClass(1); });
    refused("tick before joining", [&] { a.rti.tick(); });
}

static void objects(Federate &a, Federate &b)
{
    RTI::ObjectClassHandle car = a.rti.getObjectClassHandle("Car");
    RTI::AttributeHandle pos = a.rti.getAttributeHandle("Pos", car);
    RTI::AttributeHandleSet set;
    set.add(pos);
    set.add(a.rti.getAttributeHandle("privilegeToDelete", car));
    a.rti.publishObjectClass(car, set);
    b.rti.subscribeObjectClassAttributes(car, set);
    RTI::ObjectHandle red = a.rti.registerObjectInstance(car, "red");
    refused("register again", [&] { a.rti.registerObjectInstance(car, "red"); });
    b.hear();
    RTI::AttributeHandleValuePairSet values;
    values.add(pos, "here", 4);
    a.rti.updateAttributeValues(red, values, "");
    b.hear();
    say("attribute " + a.rti.getAttributeName(pos, car) + " " + b.rti.getObjectInstanceName(red));
    refused("attribute name", [&] { a.rti.getAttributeName(99, car); });
    refused("class name", [&] { a.rti.getObjectClassName(99); });
    refused("update by another", [&] { b.rti.updateAttributeValues(red, values, ""); });
    a.rti.enableTimeRegulation(0, 1);
    a.hear();
    b.rti.enableTimeConstrained();
    b.hear();
    a.rti.updateAttributeValues(red, values, 3, "");
    RTI::AttributeHandleSet one;
    one.add(pos);
    a.rti.changeAttributeOrderType(red, one, a.rti.getOrderingHandle("receive"));
    say("in receive order: " + std::to_string(a.rti.updateAttributeValues(red, values, 3, "").theSerialNumber));
    a.rti.deleteObjectInstance(red, 4, "");
    refused("update what is gone", [&] { a.rti.updateAttributeValues(red, values, ""); });
}

static void interactions(Federate &a, Federate &b)
{
    RTI::InteractionClassHandle hit = a.rti.getInteractionClassHandle("Hit");
    RTI::ParameterHandle force = a.rti.getParameterHandle("Force", hit);
    RTI::ParameterHandleValuePairSet values;
    values.add(force, "hard", 4);
    refused("send unpublished", [&] { a.rti.sendInteraction(hit, values, ""); });
    a.rti.publishInteractionClass(hit);
    b.rti.subscribeInteractionClass(hit);
    refused("send below the lookahead", [&] { a.rti.sendInteraction(hit, values, RTI::FedTime(0), ""); });
    RTI::EventRetractionHandle kept = a.rti.sendInteraction(hit, values, 2, "");
    RTI::EventRetractionHandle gone = a.rti.sendInteraction(hit, values, 3, "");
    say(std::string("sender ") + std::to_string(gone.sendingFederate) + ", " +
        (kept.theSerialNumber + 1 == gone.theSerialNumber ? "one behind the other" : "?"));
    a.rti.retract(gone);
    refused("retract again", [&] { a.rti.retract(gone); });
    refused("retract nothing", [&] { a.rti.retract(RTI::EventRetractionHandle()); });
    a.rti.changeInteractionOrderType(hit, RTI::RECEIVE);
    a.rti.sendInteraction(hit, RTI::ParameterHandleValuePairSet(), 3, "");
    refused("an order that is none", [&] { a.rti.changeInteractionOrderType(hit, 7); });
    say("parameter " + a.rti.getParameterName(force, hit) + " of " + a.rti.getInteractionClassName(hit));
}

static void times(Federate &a, Federate &b)
{
    RTI::FedTime time;
    b.rti.timeAdvanceRequest(5);
    refused("request again", [&] { b.rti.timeAdvanceRequest(6); });
    b.hear();
    a.rti.timeAdvanceRequest(6);
    a.hear();
    b.hear();
    b.rti.queryFederateTime(time);
    say("time " + name_of(time));
    a.rti.queryLookahead(time);
    say("lookahead " + name_of(time));
    b.rti.queryLBTS(time);
    say("bound " + name_of(time));
    a.rti.queryLBTS(time);
    say("bound of A " + name_of(time));
    refused("back", [&] { a.rti.timeAdvanceRequest(5); });
    refused("too far", [&] { a.rti.timeAdvanceRequest(RTI::FedTime(HLA_FOREVER)); });
    refused("asynchronous off", [&] { b.rti.disableAsynchronousDelivery(); });
}

static void leaving(Federate &a, Federate &b)
{
    a.rti.registerFederationSynchronizationPoint("end", "");
    b.rti.registerFederationSynchronizationPoint("end", "");
    refused("achieve too early", [&] { a.rti.synchronizationPointAchieved("end"); });
    a.hear();
    b.hear();
    a.rti.synchronizationPointAchieved("end");
    b.rti.synchronizationPointAchieved("end");
    a.hear();
    b.hear();
    refused("join twice", [&] { a.rti.joinFederationExecution("C", "Wrapper", &a); });
    refused("release attributes", [&] { a.rti.resignFederationExecution(RTI::RELEASE_ATTRIBUTES); });
    refused("destroy too early", [&] { a.rti.destroyFederationExecution("Wrapper"); });
    a.rti.resignFederationExecution(RTI::DELETE_OBJECTS);
    refused("resign again", [&] { a.rti.resignFederationExecution(RTI::NO_ACTION); });
    b.rti.resignFederationExecution(RTI::NO_ACTION);
    a.rti.destroyFederationExecution("Wrapper");
}

int main(int argc, char **argv)
{
    if (argc != 2)
        return 2;
    try {
        Federate a("A"), b("B");
        before_joining(argv[1], a);
        a.rti.joinFederationExecution("A", "Wrapper", &a);
        refused("join under the same name", [&] { b.rti.joinFederationExecution("A", "Wrapper", &b); });
        b.rti.joinFederationExecution("B", "Wrapper", &b);
        objects(a, b);
        interactions(a, b);
        times(a, b);
        leaving(a, b);
    } catch (const RTI::Exception &failure) {
        say(failure.what());
        return 1;
    }
    return 0;
}
