// The federate in C++ of the mixed federation. It joins, under a name, an execution that the program in Python opened.
#include "mixed.h"

#include "../hla13.hh"

#include <memory>
#include <string>

namespace {

const char *const execution = "Mixed";

class Federate : public RTI::FederateAmbassador {
public:
    explicit Federate(mixed_say how) : how(how) {}

    void start()
    {
        rti.joinFederationExecution("C++", execution, this);
        hit = rti.getInteractionClassHandle("Hit");
        force = rti.getParameterHandle("Force", hit);
        rti.publishInteractionClass(hit);
        rti.subscribeInteractionClass(hit);
        rti.enableTimeConstrained();
        rti.enableTimeRegulation(0, 1);
    }
    void send()
    {
        RTI::ParameterHandleValuePairSet values;
        values.add(force, "C++", 3);
        rti.sendInteraction(hit, values, now + 1, "");
        rti.timeAdvanceRequest(now + 1);
    }
    void tick() { rti.tick(); }
    void leave() { rti.resignFederationExecution(RTI::NO_ACTION); }

    uint64_t now = 0;

private:
    void say(const std::string &what) { how(("C++: " + what).c_str()); }
    void timeRegulationEnabled(const RTI::FedTime &time) override
    {
        say("regulating at " + std::to_string(time.getTime()));
    }
    void timeConstrainedEnabled(const RTI::FedTime &time) override
    {
        say("constrained at " + std::to_string(time.getTime()));
    }
    void timeAdvanceGrant(const RTI::FedTime &time) override
    {
        now = time.getTime();
        say("granted " + std::to_string(now));
    }
    void receiveInteraction(RTI::InteractionClassHandle, const RTI::ParameterHandleValuePairSet &values,
                            const RTI::FedTime &time, const char *, RTI::EventRetractionHandle) override
    {
        say("hit by " + values.text(0) + " at " + std::to_string(time.getTime()));
    }

    mixed_say how;
    RTI::RTIambassador rti;
    RTI::InteractionClassHandle hit = 0;
    RTI::ParameterHandle force = 0;
};

std::unique_ptr<Federate> federate;

// No exception leaves C++.
template <class Act> int answer(Act act)
{
    try {
        act();
    } catch (const RTI::Exception &failure) {
        return static_cast<int>(failure._serial);
    } catch (...) {
        return -1;
    }
    return 0;
}

} // namespace

int mixed_cxx_start(hla_federation *federation, mixed_say say)
{
    return answer([&] {
        RTI::adoptFederationExecution(execution, federation);
        federate.reset(new Federate(say));
        federate->start();
    });
}

int mixed_cxx_hit(void)
{
    return answer([] { federate->send(); });
}

int mixed_cxx_tick(void)
{
    return answer([] { federate->tick(); });
}

uint64_t mixed_cxx_now(void)
{
    return federate->now;
}

int mixed_cxx_leave(void)
{
    return answer([] {
        federate->leave();
        federate.reset();
        RTI::RTIambassador().destroyFederationExecution(execution);
    });
}
