"""Tries what the examples do not of hla13.py: objects, retraction, orders, exceptions, names and the misuse that the
module itself refuses. Prints the same as wrapper.cc. Usage: wrapper.py FED"""
import sys

import hla13


def name_of(time):
    return "forever" if time == hla13.FOREVER else str(time)


def refused(what, act, *arguments):
    """Says the exception that an act raises."""
    try:
        act(*arguments)
        print(f"{what}: done")
    except hla13.RTIexception as failure:
        print(f"{what}: {type(failure).__name__}")


class Federate(hla13.FederateAmbassador):
    def __init__(self, name):
        self.name = name
        self.rti = hla13.RTIambassador()

    def hear(self):
        """Ticks until nothing is given."""
        while self.rti.tick():
            pass

    def told(self, *what):
        print(f"{self.name}:", *[part for part in what if part != ""])

    @staticmethod
    def way(values, time, order):
        """The order that a message was given in, with its stamp."""
        return ("TSO" if values and order == hla13.TIMESTAMP else "RO"), "" if time is None else name_of(time)

    def discover_object_instance(self, the_object, the_object_class, the_object_name):
        name = self.rti.get_object_instance_name(the_object)
        self.told("discover", self.rti.get_object_class_name(the_object_class), the_object_name, name)

    def reflect_attribute_values(self, the_object, the_attributes, tag, time=None, event=None, order=hla13.RECEIVE):
        value = next(iter(the_attributes.values())).decode()
        self.told("reflect", the_object, value, *self.way(the_attributes, time, order))

    def receive_interaction(self, interaction_class, the_parameters, tag, time=None, event=None, order=hla13.RECEIVE):
        self.told("receive", len(the_parameters), *self.way(the_parameters, time, order))
        if time is None:
            refused("tick in a callback", self.rti.tick)

    def remove_object_instance(self, the_object, tag, time=None, event=None, order=hla13.RECEIVE):
        self.told("remove", "" if time is None else name_of(time))

    def time_regulation_enabled(self, the_federate_time):
        self.told("regulating", name_of(the_federate_time))

    def time_constrained_enabled(self, the_federate_time):
        self.told("constrained", name_of(the_federate_time))

    def time_advance_grant(self, the_time):
        self.told("granted", name_of(the_time))

    def request_retraction(self, the_handle):
        self.told("take back")

    def synchronization_point_registration_succeeded(self, label):
        self.told("registered", label)

    def synchronization_point_registration_failed(self, label):
        self.told("not registered", label)

    def announce_synchronization_point(self, label, tag):
        self.told("announced", label)

    def federation_synchronized(self, label):
        self.told("synchronized", label)


def before_joining(fed, a):
    a.rti.create_federation_execution("Wrapper", fed)
    refused("create again", a.rti.create_federation_execution, "Wrapper", fed)
    refused("create without a file", a.rti.create_federation_execution, "Other", "no-such-file")
    refused("create from a broken text", a.rti.create_federation_execution_from_text, "Other", b"(FED")
    refused("destroy what is not there", a.rti.destroy_federation_execution, "Other")
    refused("join what is not there", a.rti.join_federation_execution, "A", "Other", a)
    refused("publish before joining", a.rti.publish_interaction_class, 1)
    refused("tick before joining", a.rti.tick)


def objects(a, b):
    car = a.rti.get_object_class_handle("Car")
    pos = a.rti.get_attribute_handle("Pos", car)
    attributes = [pos, a.rti.get_attribute_handle("privilegeToDelete", car)]
    a.rti.publish_object_class(car, attributes)
    b.rti.subscribe_object_class_attributes(car, attributes)
    red = a.rti.register_object_instance(car, "red")
    refused("register again", a.rti.register_object_instance, car, "red")
    b.hear()
    values = {pos: b"here"}
    a.rti.update_attribute_values(red, values)
    b.hear()
    print("attribute", a.rti.get_attribute_name(pos, car), b.rti.get_object_instance_name(red))
    refused("attribute name", a.rti.get_attribute_name, 99, car)
    refused("class name", a.rti.get_object_class_name, 99)
    refused("update by another", b.rti.update_attribute_values, red, values)
    a.rti.enable_time_regulation(0, 1)
    a.hear()
    b.rti.enable_time_constrained()
    b.hear()
    a.rti.update_attribute_values(red, values, 3)
    a.rti.change_attribute_order_type(red, [pos], a.rti.get_ordering_handle("receive"))
    event = a.rti.update_attribute_values(red, values, 3)
    print("in receive order:", 0 if event is None else event[1])
    a.rti.delete_object_instance(red, 4)
    refused("update what is gone", a.rti.update_attribute_values, red, values)


def interactions(a, b):
    hit = a.rti.get_interaction_class_handle("Hit")
    force = a.rti.get_parameter_handle("Force", hit)
    values = {force: b"hard"}
    refused("send unpublished", a.rti.send_interaction, hit, values)
    a.rti.publish_interaction_class(hit)
    b.rti.subscribe_interaction_class(hit)
    refused("send below the lookahead", a.rti.send_interaction, hit, values, 0)
    kept = a.rti.send_interaction(hit, values, 2)
    gone = a.rti.send_interaction(hit, values, 3)
    print(f"sender {gone[0]},", "one behind the other" if kept[1] + 1 == gone[1] else "?")
    a.rti.retract(gone)
    refused("retract again", a.rti.retract, gone)
    refused("retract nothing", a.rti.retract, None)
    a.rti.change_interaction_order_type(hit, hla13.RECEIVE)
    a.rti.send_interaction(hit, {}, 3)
    refused("an order that is none", a.rti.change_interaction_order_type, hit, 7)
    print("parameter", a.rti.get_parameter_name(force, hit), "of", a.rti.get_interaction_class_name(hit))


def times(a, b):
    b.rti.time_advance_request(5)
    refused("request again", b.rti.time_advance_request, 6)
    b.hear()
    a.rti.time_advance_request(6)
    a.hear()
    b.hear()
    print("time", name_of(b.rti.query_federate_time()))
    print("lookahead", name_of(a.rti.query_lookahead()))
    print("bound", name_of(b.rti.query_lbts()))
    print("bound of A", name_of(a.rti.query_lbts()))
    refused("back", a.rti.time_advance_request, 5)
    refused("too far", a.rti.time_advance_request, hla13.FOREVER)
    refused("asynchronous off", b.rti.disable_asynchronous_delivery)


def leaving(a, b):
    a.rti.register_federation_synchronization_point("end")
    b.rti.register_federation_synchronization_point("end")
    refused("achieve too early", a.rti.synchronization_point_achieved, "end")
    a.hear()
    b.hear()
    a.rti.synchronization_point_achieved("end")
    b.rti.synchronization_point_achieved("end")
    a.hear()
    b.hear()
    refused("join twice", a.rti.join_federation_execution, "C", "Wrapper", a)
    refused("release attributes", a.rti.resign_federation_execution, hla13.RELEASE_ATTRIBUTES)
    refused("destroy too early", a.rti.destroy_federation_execution, "Wrapper")
    a.rti.resign_federation_execution(hla13.DELETE_OBJECTS)
    refused("resign again", a.rti.resign_federation_execution, hla13.NO_ACTION)
    b.rti.resign_federation_execution(hla13.NO_ACTION)
    a.rti.destroy_federation_execution("Wrapper")


def main():
    if len(sys.argv) != 2:
        sys.exit("usage: wrapper.py FED")
    a, b = Federate("A"), Federate("B")
    before_joining(sys.argv[1], a)
    a.rti.join_federation_execution("A", "Wrapper", a)
    refused("join under the same name", b.rti.join_federation_execution, "A", "Wrapper", b)
    b.rti.join_federation_execution("B", "Wrapper", b)
    objects(a, b)
    interactions(a, b)
    times(a, b)
    leaving(a, b)


main()
