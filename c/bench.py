"""How fast the module is: a send, and a tick that carries and receives it, between two federates of one thread. The
rate goes to standard error, and counts, which are the same on each machine, to standard output. Usage: bench.py FED
[ROUNDS]"""
import sys
import time

import hla13


class Receiver(hla13.FederateAmbassador):
    came = 0

    def receive_interaction(self, interaction_class, the_parameters, tag, time=None, event=None, order=hla13.RECEIVE):
        self.came += sum(len(value) for value in the_parameters.values())


def main():
    if len(sys.argv) not in (2, 3):
        sys.exit("usage: bench.py FED [ROUNDS]")
    rounds = int(sys.argv[2]) if len(sys.argv) == 3 else 100000
    receiver = Receiver()
    a, b = hla13.RTIambassador(), hla13.RTIambassador()
    a.create_federation_execution("Bench", sys.argv[1])
    a.join_federation_execution("A", "Bench", hla13.FederateAmbassador())
    b.join_federation_execution("B", "Bench", receiver)
    hit = a.get_interaction_class_handle("Hit")
    force = a.get_parameter_handle("Force", hit)
    a.publish_interaction_class(hit)
    b.subscribe_interaction_class(hit)
    start = time.monotonic()
    for turn in range(rounds):
        a.send_interaction(hit, {force: turn.to_bytes(8, "little")})
        b.tick()
    passed = time.monotonic() - start
    rate, each = rounds / passed, 1e6 * passed / rounds
    print(f"a send and a tick that receives it: {rate:.0f} a second, {each:.1f} microseconds each", file=sys.stderr)
    print(f"{rounds} rounds, {receiver.came} bytes")
    a.resign_federation_execution(hla13.NO_ACTION)
    b.resign_federation_execution(hla13.NO_ACTION)
    a.destroy_federation_execution("Bench")


main()
