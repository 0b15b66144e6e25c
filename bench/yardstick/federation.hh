// A federation of the yardstick: local components that know of each other by null messages on first-in-first-out wires, a binary heap
// for what waits in time-stamp order, and events that their receivers share. It has what the rows of bench/yardstick.py need, tests what
// these services test, and keeps what a retraction would need. Nothing of it is verified.
#pragma once
#include <algorithm>
#include <array>
#include <cstdint>
#include <deque>
#include <string>
#include <utility>
#include <vector>

using u32 = uint32_t;
using u64 = uint64_t;
constexpr u64 FOREVER = ~0ull, MAX_TIME = 1000000000000000000ull;

enum class Fault : u32 { None, NotMember, NotDefined, NotPublished, BadTime, Passed, InProgress, Memory };

struct Value {
    u32 handle;
    std::string bytes;
};
struct Event {
    u32 refs;
    u32 sender;
    u64 serial, stamp;
    bool ordered;
    u32 target;
    bool is_update;
    std::vector<Value> values;
};
struct Share {
    Event *event = nullptr;
    Share() = default;
    explicit Share(Event *e) : event(e) { e->refs++; }
    Share(const Share &o) : event(o.event) {
        if (event) event->refs++;
    }
    Share(Share &&o) noexcept : event(o.event) { o.event = nullptr; }
    Share &operator=(Share &&o) noexcept {
        std::swap(event, o.event);
        return *this;
    }
    ~Share() {
        if (event && --event->refs == 0) delete event;
    }
};
struct Message {
    enum Kind : u32 { Null, AnEvent, Discovery } kind;
    u64 epoch = 0, bound = 0;
    Share event;
    u32 object = 0;
};

struct Wire {  // a ring
    std::vector<Message> ring;
    size_t first = 0, count = 0;
    Wire() : ring(8) {}
    void grow() {
        std::vector<Message> more(ring.size() * 2);
        for (size_t i = 0; i < count; i++) more[i] = std::move(ring[(first + i) & (ring.size() - 1)]);
        ring = std::move(more);
        first = 0;
    }
    void put(Message m) {
        if (m.kind == Message::Null && count) {
            Message &last = ring[(first + count - 1) & (ring.size() - 1)];
            if (last.kind == Message::Null && last.epoch == m.epoch) {
                last = std::move(m);
                return;
            }
        }
        if (count == ring.size()) grow();
        ring[(first + count++) & (ring.size() - 1)] = std::move(m);
    }
    bool take(Message &m) {
        if (!count) return false;
        m = std::move(ring[first]);
        first = (first + 1) & (ring.size() - 1);
        count--;
        return true;
    }
};

struct Waiting {
    u64 stamp, serial;
    u32 sender;
    Share event;
};
struct Later {
    bool operator()(const Waiting &a, const Waiting &b) const {
        return a.stamp != b.stamp ? a.stamp > b.stamp : a.sender != b.sender ? a.sender > b.sender : a.serial > b.serial;
    }
};
struct Heap {
    std::vector<Waiting> items;
    void put(Waiting w) {
        items.push_back(std::move(w));
        std::push_heap(items.begin(), items.end(), Later{});
    }
    Waiting take() {
        std::pop_heap(items.begin(), items.end(), Later{});
        Waiting w = std::move(items.back());
        items.pop_back();
        return w;
    }
    u64 least() const { return items.empty() ? FOREVER : items[0].stamp; }
};

enum class Role { No, Pending, Yes };
enum class Kind { None, TAR, NER };
struct Callback {
    enum What { Nothing, Discover, Received, Regulating, Constrained, Grant } what = Nothing;
    u64 time = 0;
    Share event;
    u32 object = 0;
};

struct Federate {
    u64 time = 0, lookahead = 0, floor = 0, asked = 0, bar = 0, last_announced = FOREVER, epoch = 0, serial = 1;
    Role regulating = Role::No, constrained = Role::No;
    Kind advance = Kind::None;
    bool has_pick = false;
    u64 pick = 0;
    std::array<u64, 17> bounds, epochs;
    u64 least = FOREVER;
    u32 holders = 16;
    std::array<Wire, 17> in;
    Heap tso;
    std::deque<Share> ro;
    std::deque<u32> discoveries;
    std::vector<std::pair<u64, u64>> sent;  // serial, stamp: what may be retracted
    Federate() {
        bounds.fill(FOREVER);
        epochs.fill(0);
    }
    u64 width() const { return advance == Kind::None ? lookahead : std::max<u64>(lookahead, 1); }
    void refresh() {
        least = *std::min_element(bounds.begin() + 1, bounds.end());
        holders = 0;
        for (u32 g = 1; g <= 16; g++) holders += bounds[g] == least;
    }
    void raise(u32 from, u64 e, u64 b) {
        if (e != epochs[from] || b <= bounds[from]) return;
        bool was = bounds[from] == least;
        bounds[from] = b;
        if (was && --holders == 0) refresh();
    }
};

struct Class {
    std::vector<u32> subscribers;
    std::array<bool, 17> published{};
    u32 parameter;
};

struct Federation {
    std::vector<Federate *> members{nullptr};
    std::vector<Class> classes;
    u32 owner = 0;
    u32 count() const { return (u32)members.size() - 1; }
    void join() {
        Federate *me = new Federate;
        for (u32 g = 1; g <= count(); g++) {
            me->bounds[g] = members[g]->last_announced;
            me->epochs[g] = members[g]->epoch;
        }
        me->refresh();
        members.push_back(me);
    }
    Federate *member(u32 f) { return f == 0 || f >= members.size() ? nullptr : members[f]; }
    void null_to_all(u32 f, u64 b) {
        for (u32 g = 1; g <= count(); g++)
            if (g != f) {
                Message m;
                m.kind = Message::Null;
                m.epoch = members[f]->epoch;
                m.bound = b;
                members[g]->in[f].put(std::move(m));
            }
    }
    Fault regulate(u32 f, u64 lookahead) {
        Federate &me = *members[f];
        me.lookahead = lookahead;
        u64 e = me.time + lookahead;
        for (u32 g = 1; g <= count(); g++) {
            Federate &o = *members[g];
            if (o.constrained == Role::Yes) e = std::max(e, o.bar);
        }
        me.floor = e;
        me.regulating = Role::Pending;
        me.epoch++;
        me.last_announced = e;
        for (u32 g = 1; g <= count(); g++)
            if (g != f) {
                Federate &o = *members[g];
                o.epochs[f] = me.epoch;
                o.bounds[f] = std::min(o.bounds[f], e);
                o.refresh();
            }
        null_to_all(f, e);
        return Fault::None;
    }
    Fault constrain(u32 f) {
        members[f]->constrained = Role::Pending;
        return Fault::None;
    }
    Fault send(u32 f, u32 c, const std::vector<Value> &values, u64 stamp, u64 &serial) {
        Federate *me = member(f);
        if (!me) return Fault::NotMember;
        if (c == 0 || c > classes.size()) return Fault::NotDefined;
        Class &k = classes[c - 1];
        for (const Value &v : values)
            if (v.handle != k.parameter) return Fault::NotDefined;
        if (!k.published[f]) return Fault::NotPublished;
        bool ordered = me->regulating == Role::Yes;
        u64 low = me->advance == Kind::None ? me->floor : std::max(me->floor, me->asked + me->width());
        if (stamp > MAX_TIME || (ordered && stamp < low)) return Fault::BadTime;
        Share e(new Event{0, f, me->serial, stamp, ordered, c, false, values});
        for (u32 g : k.subscribers)
            if (g != f) {
                Message m;
                m.kind = Message::AnEvent;
                m.event = Share(e);
                members[g]->in[f].put(std::move(m));
            }
        if (ordered) me->sent.push_back({me->serial, stamp});
        serial = me->serial++;
        return Fault::None;
    }
    Fault update(u32 f, const std::vector<Value> &values) {
        Federate *me = member(f);
        if (!me) return Fault::NotMember;
        if (f != owner) return Fault::NotPublished;
        for (const Value &v : values)
            if (v.handle == 0 || v.handle > 2) return Fault::NotDefined;
        Share e(new Event{0, f, me->serial++, 0, false, 1, true, values});
        for (u32 g : classes[0].subscribers)
            if (g != f) {
                Message m;
                m.kind = Message::AnEvent;
                m.event = Share(e);
                members[g]->in[f].put(std::move(m));
            }
        return Fault::None;
    }
    Fault request(u32 f, Kind kind, u64 time) {
        Federate *me = member(f);
        if (!me) return Fault::NotMember;
        if (me->advance != Kind::None) return Fault::InProgress;
        if (me->regulating == Role::Pending || me->constrained == Role::Pending) return Fault::InProgress;
        if (time > MAX_TIME) return Fault::BadTime;
        if (time < me->time) return Fault::Passed;
        me->advance = kind;
        me->asked = time;
        me->has_pick = false;
        if (kind == Kind::TAR || me->constrained != Role::Yes) me->floor = std::max(me->floor, time + me->width());
        return Fault::None;
    }
    u64 announce(u32 f) {
        Federate &me = *members[f];
        if (me.regulating == Role::No) return 0;
        u64 p = me.floor;
        if (me.constrained == Role::Yes && me.advance == Kind::NER) {
            u64 w = std::min(std::min(me.asked, me.has_pick ? me.pick : FOREVER), std::min(me.tso.least(), me.least));
            p = std::max(p, w + me.width());
        }
        if (p <= me.last_announced) return 0;
        me.last_announced = p;
        null_to_all(f, p);
        return p;
    }
    bool carry(u32 from, u32 to) {
        Federate *me = member(to);
        if (!me || !member(from) || from == to) return false;
        Message m;
        if (!me->in[from].take(m)) return false;
        if (m.kind == Message::Null)
            me->raise(from, m.epoch, m.bound);
        else if (m.kind == Message::Discovery)
            me->discoveries.push_back(m.object);
        else if (m.event.event->ordered && me->constrained != Role::No) {
            Event *e = m.event.event;
            me->tso.put({e->stamp, e->serial, e->sender, std::move(m.event)});
        } else
            me->ro.push_back(std::move(m.event));
        return true;
    }
    void grant(Federate &me, u64 t) {
        me.floor = std::max(me.floor, t + me.width());
        me.time = t;
        me.bar = std::max(me.bar, t + 1);
        me.advance = Kind::None;
    }
    Callback tick(u32 f) {
        Callback c;
        Federate *p = member(f);
        if (!p) return c;
        Federate &me = *p;
        if (!me.discoveries.empty()) {
            c.what = Callback::Discover;
            c.object = me.discoveries.front();
            me.discoveries.pop_front();
            return c;
        }
        if (!(me.constrained == Role::Yes && me.advance == Kind::None) && !me.ro.empty()) {
            c.what = Callback::Received;
            c.event = std::move(me.ro.front());
            me.ro.pop_front();
            return c;
        }
        if (me.regulating == Role::Pending) {
            me.regulating = Role::Yes;
            c.what = Callback::Regulating;
            c.time = me.time;
            return c;
        }
        if (me.constrained == Role::Pending && me.time <= me.least) {
            me.constrained = Role::Yes;
            me.bar = me.time;
            c.what = Callback::Constrained;
            return c;
        }
        if (me.advance == Kind::None) return c;
        if (me.constrained != Role::Yes) {
            grant(me, me.asked);
            c.what = Callback::Grant;
            c.time = me.time;
            return c;
        }
        u64 s = me.tso.least();
        if (s <= me.asked && s < me.least && (!me.has_pick || me.advance != Kind::NER || s == me.pick)) {
            Waiting w = me.tso.take();
            me.has_pick = true;
            me.pick = s;
            me.bar = std::max(me.bar, s + 1);
            c.what = Callback::Received;
            c.event = std::move(w.event);
            return c;
        }
        u64 t = me.advance == Kind::NER && me.has_pick ? me.pick : me.asked;
        if (t < me.least && t < s) {
            grant(me, t);
            c.what = Callback::Grant;
            c.time = t;
        }
        return c;
    }
};

extern Federation fed;
