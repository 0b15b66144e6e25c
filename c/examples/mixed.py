"""A federation of a federate in C, one in C++ and one in Python, in one process and on one hla_federation. Each sends
hits to the others for the next time, asks for that time, and receives theirs before it is granted. Usage: mixed.py
LIBRARY FED, where LIBRARY is the shared object of mixed_c.c and mixed_cxx.cc.

The execution is this program's. The federates take turns here on one thread; the lock that each turn of the other two
holds is what would keep calls apart on several."""
import ctypes
import os
import sys

sys.path.insert(0, os.path.join(os.path.dirname(os.path.abspath(__file__)), ".."))
import hla13  # noqa: E402

EXECUTION = "Mixed"
END = 3


class PythonFederate(hla13.FederateAmbassador):
    """The federate in Python."""

    def __init__(self):
        self.rti = hla13.RTIambassador()
        self.time = 0

    def start(self):
        self.rti.join_federation_execution("Python", EXECUTION, self)
        self.hit_class = self.rti.get_interaction_class_handle("Hit")
        self.force = self.rti.get_parameter_handle("Force", self.hit_class)
        self.rti.publish_interaction_class(self.hit_class)
        self.rti.subscribe_interaction_class(self.hit_class)
        self.rti.enable_time_constrained()
        self.rti.enable_time_regulation(0, 1)

    def hit(self):
        self.rti.send_interaction(self.hit_class, {self.force: b"Python"}, self.time + 1)
        self.rti.time_advance_request(self.time + 1)

    def tick(self):
        self.rti.tick()

    def now(self):
        return self.time

    def leave(self):
        self.rti.resign_federation_execution(hla13.NO_ACTION)

    def time_regulation_enabled(self, the_federate_time):
        print(f"Python: regulating at {the_federate_time}")

    def time_constrained_enabled(self, the_federate_time):
        print(f"Python: constrained at {the_federate_time}")

    def time_advance_grant(self, the_time):
        self.time = the_time
        print(f"Python: granted {the_time}")

    def receive_interaction(self, interaction_class, the_parameters, tag, time=None, event=None, order=hla13.RECEIVE):
        print(f"Python: hit by {the_parameters[self.force].decode()} at {time}")


class ForeignFederate:
    """A federate of the shared object, by the prefix of its functions."""

    def __init__(self, library, prefix):
        self.library, self.prefix = library, prefix
        self.federation, self.lock = hla13.lend_federation(EXECUTION)
        self.say = ctypes.CFUNCTYPE(None, ctypes.c_char_p)(lambda line: print(line.decode()))

    def call(self, name, *arguments):
        with self.lock:
            code = getattr(self.library, self.prefix + name)(*arguments)
        if code:
            raise RuntimeError(f"{self.prefix}{name}: {code}")

    def start(self):
        self.call("start", self.federation, self.say)

    def hit(self):
        self.call("hit")

    def tick(self):
        self.call("tick")

    def now(self):
        call = getattr(self.library, self.prefix + "now")
        call.restype = ctypes.c_uint64
        return call()

    def leave(self):
        self.call("leave")


def main():
    if len(sys.argv) != 3:
        sys.exit("usage: mixed.py LIBRARY FED")
    rti = hla13.RTIambassador()
    rti.create_federation_execution(EXECUTION, sys.argv[2])
    library = ctypes.CDLL(sys.argv[1])
    federates = [ForeignFederate(library, "mixed_c_"), ForeignFederate(library, "mixed_cxx_"), PythonFederate()]
    for federate in federates:
        federate.start()
    for _ in range(2):  # constrained, and regulating
        for federate in federates:
            federate.tick()
    for time in range(1, END + 1):
        for federate in federates:
            federate.hit()
        while any(federate.now() < time for federate in federates):
            for federate in federates:
                federate.tick()
    for federate in federates:
        federate.leave()
    rti.destroy_federation_execution(EXECUTION)


main()
