"""The interface of HLA 1.3 (DMSO) for Python 3, over hla13.h by ctypes: the standard's names in Python's case.

The shared object is the file that the environment variable HLA13_LIBRARY names, or out/libhla13.so beside this module.

What it is:
 - Executions live in one process and have names; their federates may run on threads of their own. Each execution has
   a lock, which a service takes for its call alone. An RTIambassador is used by one thread at a time.
 - A callback is made by the thread that ticks and without the lock, so that it may call its own RTIambassador; only
   tick may not be called again from within (ConcurrentAccessAttempted). What a callback raises, tick raises; the
   callback counts as given.
 - There is no thread that moves messages. Each tick first takes all that came on the wires to the federate, then
   announces the federate's promise, and gives at most one callback. Each request to advance announces, too. So a
   federate that others wait for has to tick: grants come where each federate ticks again and again.
 - Times are ticks, whole numbers from 0 to 10^18; FOREVER stands above all. Handles are numbers from 1 on. Values are
   bytes, at most 1,024 of them, in a dict by handle. Names and labels are str, in UTF-8. An event retraction handle
   is a pair, or None.

What of HLA 1.3 is left out: ownership management; data distribution management; saving and restoring; user-supplied
tags (they are not carried); sets of federates at synchronization points; Request Attribute Value Update and Provide;
Local Delete Object Instance; Change Transportation Type; transportation and space handles; Get Object Class of an
instance; the advisories and their switches; passive subscription; the resign actions that release attributes; the
management object model.
"""
import ctypes
import os
import threading
import time

FOREVER = 2**64 - 1
RECEIVE, TIMESTAMP = 1, 2
RELEASE_ATTRIBUTES, DELETE_OBJECTS, DELETE_OBJECTS_AND_RELEASE_ATTRIBUTES, NO_ACTION = 1, 2, 3, 4

_ERROR_READING_FED, _NOT_MEMBER, _NO_ROOM, _NO_SUCH_NUMBER = 4, 6, 102, 103
_u8, _u32, _u64, _size = ctypes.c_uint8, ctypes.c_uint32, ctypes.c_uint64, ctypes.c_size_t


class RTIexception(Exception):
    """What a service raises; `number` is the fault's."""

    number = 0


class RTIinternalError(RTIexception):
    """A number that no exception has."""


# The exceptions of an execution, by their numbers from 1 on.
_FAULTS = [
    "FederationExecutionAlreadyExists", "FederationExecutionDoesNotExist", "FederatesCurrentlyJoined",
    "ErrorReadingFED", "FederateAlreadyExecutionMember", "FederateNotExecutionMember", "FederateOwnsAttributes",
    "ObjectClassNotDefined",
    "AttributeNotDefined", "ObjectClassNotPublished", "AttributeNotPublished", "ObjectClassNotSubscribed",
    "InteractionClassNotDefined", "InteractionParameterNotDefined", "InteractionClassNotPublished",
    "InteractionClassNotSubscribed", "ObjectAlreadyRegistered", "ObjectNotKnown", "AttributeNotOwned",
    "DeletePrivilegeNotHeld", "InvalidFederationTime", "InvalidLookahead", "FederationTimeAlreadyPassed",
    "TimeAdvanceAlreadyInProgress", "TimeRegulationAlreadyEnabled", "EnableTimeRegulationPending",
    "TimeRegulationWasNotEnabled", "TimeConstrainedAlreadyEnabled", "EnableTimeConstrainedPending",
    "TimeConstrainedWasNotEnabled", "AsynchronousDeliveryAlreadyEnabled", "AsynchronousDeliveryAlreadyDisabled",
    "InvalidRetractionHandle", "NameNotFound", "FederateInternalError", "LimitReached", "HistoryFull", "OutOfMemory",
    "InvalidResignAction", "SynchronizationPointLabelWasNotAnnounced",
]
# Exceptions of the standard that this module raises by itself.
_FAULTS_OF_THE_MODULE = {201: "CouldNotOpenFED", 202: "ConcurrentAccessAttempted", 204: "InvalidOrderingHandle"}

_exceptions = {}
for _number, _name in [*enumerate(_FAULTS, 1), *_FAULTS_OF_THE_MODULE.items()]:
    _exceptions[_number] = globals()[_name] = type(_name, (RTIexception,), {"number": _number, "__module__": __name__})


def _fail(number, reason):
    """Raises the exception of a number."""
    if number in _exceptions:
        raise _exceptions[number](reason)
    failure = RTIinternalError(f"{reason}: {number}")
    failure.number = number
    raise failure


def _check(code, reason):
    """Raises the exception of a number that is not 0."""
    if code:
        _fail(code, reason)


class _Federation(ctypes.Structure):
    _fields_ = [("tag", _u64), ("at", ctypes.c_void_p)]


class _Value(ctypes.Structure):
    _fields_ = [("handle", _u32), ("length", _u64)]


class _Event(ctypes.Structure):
    _fields_ = [("sender", _u32), ("serial", _u64)]


class _Carried(ctypes.Structure):
    _fields_ = [("kind", _u32), ("sender", _u32), ("serial", _u64), ("bound", _u64), ("object", _u32)]


class _Callback(ctypes.Structure):
    _fields_ = [
        ("kind", _u32), ("object", _u32), ("class_", _u32), ("delivery", _u32), ("sender", _u32),
        ("serial", _u64), ("stamp", _u64), ("time", _u64), ("values", _u64), ("bytes", _u64),
    ]


class _FedFault(ctypes.Structure):
    _fields_ = [("line", _u64), ("kind", _u32)]


def _library():
    """The shared object, whose calls all answer a number."""
    beside = os.path.join(os.path.dirname(os.path.abspath(__file__)), "out", "libhla13.so")
    return ctypes.CDLL(os.environ.get("HLA13_LIBRARY") or beside)


_calls = _library()


def _number(handle):
    """A handle for a call; 0, which stands for nothing, where it is too large for one."""
    return _u32(handle if 0 < handle < 2**32 else 0)


def _ticks(ticks):
    """A time for a call; FOREVER, which no service takes, where it is none."""
    return _u64(ticks if 0 <= ticks < 2**64 else FOREVER)


def _text(text):
    """A text for a call: its bytes and their number."""
    octets = text.encode() if isinstance(text, str) else bytes(text)
    return octets, _size(len(octets))


def _numbers(handles):
    """Handles for a call: an array, which is not empty, and their number."""
    items = [_number(handle).value for handle in handles]
    return (_u32 * max(1, len(items)))(*items), _size(len(items))


def _values(values):
    """Values for a call: their heads and their bytes, with the number of each."""
    items = [(_number(handle).value, bytes(value)) for handle, value in values.items()]
    heads = (_Value * max(1, len(items)))(*[_Value(handle, len(value)) for handle, value in items])
    octets = b"".join(value for _, value in items)
    return heads, _size(len(items)), octets, _size(len(octets))


def _call(service, *arguments):
    """A call of hla13.h; what it answers."""
    call = getattr(_calls, "hla_" + service)
    call.restype = _u32
    return call(*arguments)


def _written(service, *arguments):
    """A text that a call writes. It is called again where the text has no room."""
    room, used = 256, _size(0)
    while True:
        octets = (_u8 * room)()
        code = _call(service, *arguments, octets, _size(room), ctypes.byref(used))
        if code != _NO_ROOM:
            _check(code, service)
            return bytes(octets[: used.value]).decode()
        room = used.value


class _Execution:
    """An execution with the lock that puts the calls on it in an order."""

    def __init__(self, fed):
        self.lock = threading.Lock()
        self.joined = 0
        self.is_destroyed = False  # seen by who found it by its name before
        self.federation = _Federation(0, None)
        fault = _FedFault(0, 0)
        code = _call("open", self.at(), *_text(fed), ctypes.byref(fault))
        if code == _ERROR_READING_FED:
            _fail(code, f"line {fault.line}: {_written('fed_fault_name', _u32(fault.kind))}")
        _check(code, "create_federation_execution")

    def __del__(self, close=_calls.hla_close, at=ctypes.byref):  # also when the module's names are gone
        close(at(self.federation))

    def at(self):
        return ctypes.byref(self.federation)


_executions = {}
_executions_lock = threading.Lock()


def _find(execution_name):
    """An execution by its name."""
    with _executions_lock:
        if execution_name not in _executions:
            raise FederationExecutionDoesNotExist(execution_name)
        return _executions[execution_name]


def lend_federation(execution_name):
    """The address of an execution's hla_federation, for other code that makes calls of hla13.h in this process, and the
    lock to hold at each of them. It is good until the execution is destroyed."""
    execution = _find(execution_name)
    return ctypes.c_void_p(ctypes.addressof(execution.federation)), execution.lock


class FederateAmbassador:
    """What a federate is told; override what it wants to hear. `time` and `event` are None where a message was sent in
    receive order, and `order` is the one in which it is given. Tags are always empty."""

    def synchronization_point_registration_succeeded(self, label):
        pass

    def synchronization_point_registration_failed(self, label):
        pass

    def announce_synchronization_point(self, label, tag):
        pass

    def federation_synchronized(self, label):
        pass

    def discover_object_instance(self, the_object, the_object_class, the_object_name):
        pass

    def reflect_attribute_values(self, the_object, the_attributes, tag, time=None, event=None, order=RECEIVE):
        pass

    def receive_interaction(self, interaction_class, the_parameters, tag, time=None, event=None, order=RECEIVE):
        pass

    def remove_object_instance(self, the_object, tag, time=None, event=None, order=RECEIVE):
        pass

    def time_regulation_enabled(self, the_federate_time):
        pass

    def time_constrained_enabled(self, the_federate_time):
        pass

    def time_advance_grant(self, the_time):
        pass

    def request_retraction(self, the_handle):
        pass


def _give(to, given, values, text):
    """Gives a callback to an ambassador."""
    event = (given.sender, given.serial)
    message = {"order": TIMESTAMP if given.delivery == 2 else RECEIVE}
    if given.delivery:
        message.update(time=given.stamp, event=event)
    return {
        1: lambda: to.discover_object_instance(given.object, given.class_, text),
        2: lambda: to.reflect_attribute_values(given.object, values, b"", **message),
        3: lambda: to.receive_interaction(given.class_, values, b"", **message),
        4: lambda: to.remove_object_instance(given.object, b"", **message),
        5: lambda: to.time_regulation_enabled(given.time),
        6: lambda: to.time_constrained_enabled(given.time),
        7: lambda: to.time_advance_grant(given.time),
        8: lambda: to.request_retraction(event),
        9: lambda: to.synchronization_point_registration_succeeded(text),
        10: lambda: to.synchronization_point_registration_failed(text),
        11: lambda: to.announce_synchronization_point(text, b""),
        12: lambda: to.federation_synchronized(text),
    }[given.kind]()


class RTIambassador:
    """The services of one federate."""

    def __init__(self):
        self._execution = None
        self._federate = 0
        self._callbacks = None
        self._is_ticking = False

    # What services share.

    def _joined(self):
        if self._execution is None:
            raise FederateNotExecutionMember("this RTIambassador has not joined")
        return self._execution

    def _serve(self, service, *arguments):
        """A service of this federate."""
        execution = self._joined()
        with execution.lock:
            _check(_call(service, execution.at(), _u32(self._federate), *arguments), service)

    def _answer(self, service, answered, *arguments):
        """A service of this federate that writes a number."""
        self._serve(service, *arguments, ctypes.byref(answered))
        return answered.value

    def _request(self, service, *arguments):
        """A service after which there may be more to promise. Where memory for the announcement is refused, the next
        tick makes it."""
        execution = self._joined()
        with execution.lock:
            _check(_call(service, execution.at(), _u32(self._federate), *arguments), service)
            _call("announce", execution.at(), _u32(self._federate), ctypes.byref(_u64(0)))

    def _send(self, service, handle, values, stamp):
        """A service that sends values; the event retraction handle, or None."""
        event = _Event(0, 0)
        if stamp is None:
            self._serve(service, _number(handle), *_values(values), ctypes.byref(event))
        else:
            self._serve(service + "_at", _number(handle), *_values(values), _ticks(stamp), ctypes.byref(event))
        return (event.sender, event.serial) if event.serial else None

    def _name(self, service, *arguments):
        """A name that a call writes."""
        execution = self._joined()
        with execution.lock:
            return _written(service, execution.at(), *arguments)

    # Federation management.

    def create_federation_execution(self, execution_name, fed):
        """`fed` is the name of a file."""
        try:
            with open(fed, "rb") as file:
                text = file.read()
        except OSError as failure:
            raise CouldNotOpenFED(str(failure)) from failure
        self.create_federation_execution_from_text(execution_name, text)

    def create_federation_execution_from_text(self, execution_name, fed):
        made = _Execution(fed)
        with _executions_lock:
            if execution_name in _executions:
                raise FederationExecutionAlreadyExists(execution_name)
            _executions[execution_name] = made

    def destroy_federation_execution(self, execution_name):
        execution = _find(execution_name)
        with _executions_lock, execution.lock:
            if execution.is_destroyed:
                raise FederationExecutionDoesNotExist(execution_name)
            if execution.joined:
                raise FederatesCurrentlyJoined(execution_name)
            execution.is_destroyed = True
            del _executions[execution_name]
            _check(_call("close", execution.at()), "destroy_federation_execution")

    def join_federation_execution(self, your_name, execution_name, federate_ambassador):
        if self._execution is not None:
            raise FederateAlreadyExecutionMember("this RTIambassador has joined")
        execution, federate = _find(execution_name), _u32(0)
        with execution.lock:
            if execution.is_destroyed:
                raise FederationExecutionDoesNotExist(execution_name)
            code = _call("join_federation_execution", execution.at(), *_text(your_name), ctypes.byref(federate))
            _check(code, "join_federation_execution")
            execution.joined += 1
        self._execution, self._federate, self._callbacks = execution, federate.value, federate_ambassador
        return self._federate

    def resign_federation_execution(self, the_action):
        execution = self._joined()
        with execution.lock:
            code = _call("resign_federation_execution", execution.at(), _u32(self._federate), _number(the_action))
            if code == _NO_SUCH_NUMBER:
                raise InvalidResignAction(str(the_action))
            _check(code, "resign_federation_execution")
            execution.joined -= 1
        self._execution = None

    def register_federation_synchronization_point(self, label, tag=b""):
        self._serve("register_federation_synchronization_point", *_text(label))

    def synchronization_point_achieved(self, label):
        self._serve("synchronization_point_achieved", *_text(label))

    # Declaration management.

    def publish_object_class(self, the_class, attributes):
        self._serve("publish_object_class", _number(the_class), *_numbers(attributes))

    def unpublish_object_class(self, the_class):
        self._serve("unpublish_object_class", _number(the_class))

    def publish_interaction_class(self, the_class):
        self._serve("publish_interaction_class", _number(the_class))

    def unpublish_interaction_class(self, the_class):
        self._serve("unpublish_interaction_class", _number(the_class))

    def subscribe_object_class_attributes(self, the_class, attributes):
        self._serve("subscribe_object_class_attributes", _number(the_class), *_numbers(attributes))

    def unsubscribe_object_class(self, the_class):
        self._serve("unsubscribe_object_class", _number(the_class))

    def subscribe_interaction_class(self, the_class):
        self._serve("subscribe_interaction_class", _number(the_class))

    def unsubscribe_interaction_class(self, the_class):
        self._serve("unsubscribe_interaction_class", _number(the_class))

    # Object management.

    def register_object_instance(self, the_class, the_object=None):
        """Under the name `the_object`, or where it is None under a name that the infrastructure makes; its handle."""
        if the_object is None:
            return self._answer("register_object_instance", _u32(0), _number(the_class))
        return self._answer("register_named_object_instance", _u32(0), _number(the_class), *_text(the_object))

    def update_attribute_values(self, the_object, the_attributes, the_time=None, tag=b""):
        """The event retraction handle of the message in time-stamp order, or None."""
        return self._send("update_attribute_values", the_object, the_attributes, the_time)

    def send_interaction(self, the_interaction, the_parameters, the_time=None, tag=b""):
        """The event retraction handle of the message in time-stamp order, or None."""
        return self._send("send_interaction", the_interaction, the_parameters, the_time)

    def delete_object_instance(self, the_object, the_time=None, tag=b""):
        if the_time is None:
            self._serve("delete_object_instance", _number(the_object))
        else:
            self._serve("delete_object_instance_at", _number(the_object), _ticks(the_time))

    def change_attribute_order_type(self, the_object, attributes, the_type):
        _ordered(the_type)
        self._serve("change_attribute_order_type", _number(the_object), *_numbers(attributes), _number(the_type))

    def change_interaction_order_type(self, the_class, the_type):
        _ordered(the_type)
        self._serve("change_interaction_order_type", _number(the_class), _number(the_type))

    # Time management.

    def enable_time_regulation(self, the_federate_time, the_lookahead):
        self._request("enable_time_regulation", _ticks(the_federate_time), _ticks(the_lookahead))

    def disable_time_regulation(self):
        self._request("disable_time_regulation")

    def enable_time_constrained(self):
        self._request("enable_time_constrained")

    def disable_time_constrained(self):
        self._request("disable_time_constrained")

    def time_advance_request(self, the_time):
        self._request("time_advance_request", _ticks(the_time))

    def time_advance_request_available(self, the_time):
        self._request("time_advance_request_available", _ticks(the_time))

    def next_event_request(self, the_time):
        self._request("next_event_request", _ticks(the_time))

    def next_event_request_available(self, the_time):
        self._request("next_event_request_available", _ticks(the_time))

    def flush_queue_request(self, the_time):
        self._request("flush_queue_request", _ticks(the_time))

    def modify_lookahead(self, the_lookahead):
        self._request("modify_lookahead", _ticks(the_lookahead))

    def enable_asynchronous_delivery(self):
        self._serve("enable_asynchronous_delivery")

    def disable_asynchronous_delivery(self):
        self._serve("disable_asynchronous_delivery")

    def query_lbts(self):
        return self._answer("query_lbts", _u64(0))

    def query_federate_time(self):
        return self._answer("query_federate_time", _u64(0))

    def query_min_next_event_time(self):
        return self._answer("query_min_next_event_time", _u64(0))

    def query_lookahead(self):
        return self._answer("query_lookahead", _u64(0))

    def retract(self, the_handle):
        sender, serial = the_handle if the_handle is not None else (0, 0)
        self._serve("retract", _number(sender), _ticks(serial))

    # Support services.

    def get_object_class_handle(self, the_name):
        return self._answer("get_object_class_handle", _u32(0), *_text(the_name))

    def get_object_class_name(self, the_handle):
        name = self._name("object_class_name", _number(the_handle))
        if not name:
            raise ObjectClassNotDefined(str(the_handle))
        return name

    def get_attribute_handle(self, the_name, which_class):
        return self._answer("get_attribute_handle", _u32(0), *_text(the_name), _number(which_class))

    def get_attribute_name(self, the_handle, which_class):
        name = self._name("attribute_name", _number(the_handle))
        try:
            if name and self.get_attribute_handle(name, which_class) == the_handle:
                return name
        except NameNotFound:
            pass
        raise AttributeNotDefined(str(the_handle))

    def get_interaction_class_handle(self, the_name):
        return self._answer("get_interaction_class_handle", _u32(0), *_text(the_name))

    def get_interaction_class_name(self, the_handle):
        name = self._name("interaction_class_name", _number(the_handle))
        if not name:
            raise InteractionClassNotDefined(str(the_handle))
        return name

    def get_parameter_handle(self, the_name, which_class):
        return self._answer("get_parameter_handle", _u32(0), *_text(the_name), _number(which_class))

    def get_parameter_name(self, the_handle, which_class):
        name = self._name("parameter_name", _number(the_handle))
        try:
            if name and self.get_parameter_handle(name, which_class) == the_handle:
                return name
        except NameNotFound:
            pass
        raise InteractionParameterNotDefined(str(the_handle))

    def get_object_instance_handle(self, the_name):
        return self._answer("get_object_instance_handle", _u32(0), *_text(the_name))

    def get_object_instance_name(self, the_handle):
        return self._name("get_object_instance_name", _u32(self._federate), _number(the_handle))

    # Callbacks.

    def tick(self, minimum=None, maximum=None):
        """Takes all that came to the federate, announces its promise, and gives at most one callback; answers whether
        it gave one.

        With two numbers of seconds it gives callbacks for at least `minimum`, and then until there are none, or
        `maximum` are over; it answers True where there may be more."""
        if minimum is None:
            return self._tick()
        start = time.monotonic()
        while True:
            gave = self._tick()
            passed = time.monotonic() - start
            if not gave and passed >= minimum:
                return False
            if passed >= (minimum if maximum is None else maximum):
                return True
            if not gave:
                time.sleep(0)

    def _tick(self):
        if self._is_ticking:
            raise ConcurrentAccessAttempted("tick")
        execution = self._joined()
        with execution.lock:
            given, values, text = self._pick(execution)
        if given.kind == 0:
            return False
        self._is_ticking = True
        try:
            _give(self._callbacks, given, values, text)
        finally:
            self._is_ticking = False
        return True

    def _pick(self, execution):
        """Picks up a callback with its values and its text; the lock is held."""
        at, federate, given = execution.at(), _u32(self._federate), _Callback()
        self._carry(execution)
        _check(_call("announce", at, federate, ctypes.byref(_u64(0))), "tick")
        _check(_call("tick", at, federate, ctypes.byref(given)), "tick")
        if given.kind in (2, 3):
            return given, self._picked_values(execution, given), ""
        return given, {}, _written("callback_name", at) if given.bytes else ""

    def _picked_values(self, execution, given):
        heads, octets = (_Value * max(1, given.values))(), (_u8 * max(1, given.bytes))()
        rooms = heads, _size(given.values), octets, _size(given.bytes)
        _check(_call("callback_values", execution.at(), *rooms), "tick")
        values, start, whole = {}, 0, bytes(octets)
        for head in heads[: given.values]:
            values[head.handle] = whole[start : start + head.length]
            start += head.length
        return values

    def _carry(self, execution):
        """Takes all that came on the wires to this federate. Numbers are given from 1 on without a gap, and the wires
        of those that resigned still hold what they sent."""
        at, own, code, number, carried = execution.at(), self._federate, 0, 0, _Carried()
        while code != _NOT_MEMBER:
            number, carried.kind = number + 1, 1
            while code == 0 and number != own and carried.kind:
                code = _call("carry", at, _u32(number), _u32(own), ctypes.byref(carried))
            if code != _NOT_MEMBER:
                _check(code, "tick")

    def get_ordering_handle(self, the_name):
        if the_name not in ("receive", "timestamp"):
            raise NameNotFound(the_name)
        return RECEIVE if the_name == "receive" else TIMESTAMP

    def get_ordering_name(self, the_handle):
        _ordered(the_handle)
        return "receive" if the_handle == RECEIVE else "timestamp"


def _ordered(order):
    """Raises where a number stands for no order."""
    if order not in (RECEIVE, TIMESTAMP):
        raise InvalidOrderingHandle(str(order))
