// Two federates on two threads in lock-step, each with a lookahead of 1: each sends the other a hit for the next
// time, asks for that time, and receives the other's hit before it is granted. Usage: lockstep FED
#include "../hla13.hh"

#include <cstdio>
#include <exception>
#include <string>
#include <thread>
#include <vector>

static const char *const execution = "Lockstep";
static const uint64_t end = 5;

class Federate : public RTI::FederateAmbassador {
public:
    explicit Federate(const char *name) : name(name) {}

    void join() { rti.joinFederationExecution(name.c_str(), execution, this); }

    // The whole life of a federate that has joined; `is_first` registers the point at which both start.
    void live(bool is_first)
    {
        hit = rti.getInteractionClassHandle("Hit");
        force = rti.getParameterHandle("Force", hit);
        rti.publishInteractionClass(hit);
        rti.subscribeInteractionClass(hit);
        rti.enableTimeConstrained();
        tick_until(is_constrained);
        rti.enableTimeRegulation(0, 1);
        tick_until(is_regulating);
        if (is_first)
            rti.registerFederationSynchronizationPoint("ready", "");
        // Only who regulates has reached it: the other would go ahead of one who does not yet.
        tick_until(is_announced);
        rti.synchronizationPointAchieved("ready");
        tick_until(is_synchronized);
        while (now < end)
            step();
        rti.resignFederationExecution(RTI::NO_ACTION);
    }

    std::vector<std::string> lines;

private:
    void step()
    {
        RTI::ParameterHandleValuePairSet values;
        values.add(force, name.data(), name.size());
        rti.sendInteraction(hit, values, now + 1, "");
        is_granted = false;
        rti.timeAdvanceRequest(now + 1);
        tick_until(is_granted);
    }
    void tick_until(const bool &is_so)
    {
        while (!is_so)
            if (rti.tick() == RTI::RTI_FALSE)
                std::this_thread::yield();
    }
    void say(const std::string &what) { lines.push_back(name + ": " + what); }

    void receiveInteraction(RTI::InteractionClassHandle theClass, const RTI::ParameterHandleValuePairSet &values,
                            const RTI::FedTime &time, const char *, RTI::EventRetractionHandle) override
    {
        say(rti.getInteractionClassName(theClass) + " by " + values.text(0) + " at " + std::to_string(time.getTime()));
    }
    void timeAdvanceGrant(const RTI::FedTime &time) override
    {
        now = time.getTime();
        is_granted = true;
        say("granted " + std::to_string(now));
    }
    void timeRegulationEnabled(const RTI::FedTime &) override { is_regulating = true; }
    void timeConstrainedEnabled(const RTI::FedTime &) override { is_constrained = true; }
    void announceSynchronizationPoint(const char *, const char *) override { is_announced = true; }
    void federationSynchronized(const char *label) override
    {
        is_synchronized = true;
        say(std::string("all are ") + label);
    }

    std::string name;
    RTI::RTIambassador rti;
    RTI::InteractionClassHandle hit = 0;
    RTI::ParameterHandle force = 0;
    uint64_t now = 0;
    bool is_constrained = false, is_regulating = false, is_announced = false, is_synchronized = false, is_granted = false;
};

int main(int argc, char **argv)
{
    if (argc != 2) {
        std::fprintf(stderr, "usage: lockstep FED\n");
        return 2;
    }
    try {
        RTI::RTIambassador rti;
        rti.createFederationExecution(execution, argv[1]);
        Federate a("A"), b("B");
        a.join(); // before the threads begin, so that both are members of the point
        b.join();
        std::thread first([&a] { a.live(true); });
        std::thread second([&b] { b.live(false); });
        first.join();
        second.join();
        rti.destroyFederationExecution(execution);
        for (const Federate *federate : { &a, &b })
            for (const std::string &line : federate->lines)
                std::printf("%s\n", line.c_str());
    } catch (const RTI::Exception &failure) {
        std::fprintf(stderr, "%s\n", failure.what());
        return 1;
    }
    return 0;
}
