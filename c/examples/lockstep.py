"""Two federates on two threads in lock-step, each with a lookahead of 1: each sends the other a hit for the next time,
asks for that time, and receives the other's hit before it is granted. Usage: lockstep.py FED"""
import os
import sys
import threading
import time

sys.path.insert(0, os.path.join(os.path.dirname(os.path.abspath(__file__)), ".."))
import hla13  # noqa: E402

EXECUTION = "Lockstep"
END = 5


class Federate(hla13.FederateAmbassador):
    def __init__(self, name):
        self.name = name
        self.rti = hla13.RTIambassador()
        self.now = 0
        self.known = set()  # what it was told
        self.lines = []

    def join(self):
        self.rti.join_federation_execution(self.name, EXECUTION, self)

    def live(self, is_first):
        """The whole life of a federate that has joined; `is_first` registers the point at which both start."""
        self.hit = self.rti.get_interaction_class_handle("Hit")
        self.force = self.rti.get_parameter_handle("Force", self.hit)
        self.rti.publish_interaction_class(self.hit)
        self.rti.subscribe_interaction_class(self.hit)
        self.rti.enable_time_constrained()
        self.tick_until("constrained")
        self.rti.enable_time_regulation(0, 1)
        self.tick_until("regulating")
        if is_first:
            self.rti.register_federation_synchronization_point("ready")
        # Only who regulates has reached it: the other would go ahead of one who does not yet.
        self.tick_until("announced")
        self.rti.synchronization_point_achieved("ready")
        self.tick_until("synchronized")
        while self.now < END:
            self.step()
        self.rti.resign_federation_execution(hla13.NO_ACTION)

    def step(self):
        self.rti.send_interaction(self.hit, {self.force: self.name.encode()}, self.now + 1)
        self.known.discard("granted")
        self.rti.time_advance_request(self.now + 1)
        self.tick_until("granted")

    def tick_until(self, what):
        while what not in self.known:
            if not self.rti.tick():
                time.sleep(0)

    def say(self, what):
        self.lines.append(f"{self.name}: {what}")

    def receive_interaction(self, interaction_class, the_parameters, tag, time=None, event=None, order=hla13.RECEIVE):
        name = self.rti.get_interaction_class_name(interaction_class)
        self.say(f"{name} by {the_parameters[self.force].decode()} at {time}")

    def time_advance_grant(self, the_time):
        self.now = the_time
        self.known.add("granted")
        self.say(f"granted {the_time}")

    def time_regulation_enabled(self, the_federate_time):
        self.known.add("regulating")

    def time_constrained_enabled(self, the_federate_time):
        self.known.add("constrained")

    def announce_synchronization_point(self, label, tag):
        self.known.add("announced")

    def federation_synchronized(self, label):
        self.known.add("synchronized")
        self.say(f"all are {label}")


def main():
    if len(sys.argv) != 2:
        sys.exit("usage: lockstep.py FED")
    rti = hla13.RTIambassador()
    rti.create_federation_execution(EXECUTION, sys.argv[1])
    a, b = Federate("A"), Federate("B")
    a.join()  # before the threads begin, so that both are members of the point
    b.join()
    threads = [threading.Thread(target=federate.live, args=(federate is a,)) for federate in (a, b)]
    for thread in threads:
        thread.start()
    for thread in threads:
        thread.join()
    rti.destroy_federation_execution(EXECUTION)
    print("\n".join(a.lines + b.lines))


main()
