// An unverified program of the semantics of `hla_bench lockstep | phold | updates | queue | fed` and of `hlaplay play - -`, which
// bench/yardstick.py lays beside these. It prints the same.
#include <chrono>
#include <cstdint>
#include <cstdio>
#include <cstdlib>
#include <string>
#include <unordered_map>
#include <vector>

#include "federation.hh"
#include "texts.hh"

Federation fed;

struct Random {
    u64 x = 1;
    u64 next() {
        x = x * 6364136223846793005ull + 1442695040888963407ull;
        return x >> 33;
    }
};
struct Counts {
    u64 steps = 0, sent = 0, received = 0, grants = 0, queued = 0;
} counts;

u64 visit(u32 f, bool &granted, u64 &time) {
    u64 received = 0;
    granted = false;
    for (;;) {
        counts.steps++;
        Callback c = fed.tick(f);
        if (c.what == Callback::Received)
            received++;
        else if (c.what == Callback::Grant) {
            granted = true;
            time = c.time;
            counts.grants++;
            break;
        } else if (c.what == Callback::Nothing)
            break;
    }
    counts.received += received;
    return received;
}
void must(Fault f) {
    counts.steps++;
    if (f != Fault::None) {
        fprintf(stderr, "fault\n");
        exit(1);
    }
}
void send(u32 f, u32 c, u64 stamp) {
    std::vector<Value> v;
    v.push_back({c, "8 bytes."});
    u64 s;
    must(fed.send(f, c, v, stamp, s));
    counts.sent++;
}
void carry_from(u32 f, u32 n) {
    for (u32 g = 1; g <= n; g++)
        if (g != f)
            for (;;) {
                counts.steps++;
                if (!fed.carry(f, g)) break;
            }
}
void enable(u32 f, u64 l) {
    bool g;
    u64 t;
    must(fed.regulate(f, l));
    visit(f, g, t);
    must(fed.constrain(f));
    visit(f, g, t);
}

void lockstep(u32 n, u32 events, u64 rounds) {
    fed.classes.resize(1);
    fed.classes[0].parameter = 1;
    for (u32 f = 1; f <= n; f++) {
        fed.join();
        counts.steps += 3;
        fed.classes[0].published[f] = true;
        fed.classes[0].subscribers.push_back(f);
        enable(f, 1);
    }
    for (u64 t = 1; t <= rounds; t++) {
        for (u32 f = 1; f <= n; f++) {
            for (u32 k = 0; k < events; k++) send(f, 1, t);
            must(fed.request(f, Kind::TAR, t));
            counts.steps++;
            fed.announce(f);
        }
        for (u32 f = 1; f <= n; f++) carry_from(f, n);
        for (u32 f = 1; f <= n; f++) {
            bool g;
            u64 x;
            visit(f, g, x);
        }
    }
}
void phold(u32 n, u32 population, u64 lookahead, u64 delivered) {
    Random r;
    fed.classes.resize(16);
    for (u32 c = 0; c < 16; c++) fed.classes[c].parameter = c + 1;
    for (u32 f = 1; f <= n; f++) {
        fed.join();
        counts.steps++;
        for (u32 c = 0; c < n; c++) {
            fed.classes[c].published[f] = true;
            counts.steps++;
        }
        fed.classes[f - 1].subscribers.push_back(f);
        counts.steps++;
        enable(f, lookahead);
    }
    auto one = [&](u32 f, u64 time) {
        u32 k = r.next() % (std::max<u32>(n, 2) - 1);
        u32 c = k + 1 < f ? k + 1 : k + 2;
        u64 ahead = lookahead + r.next() % 100;
        send(f, c, time + ahead);
    };
    for (u32 f = 1; f <= n; f++) {
        for (u32 k = 0; k < population; k++) one(f, 0);
        must(fed.request(f, Kind::NER, MAX_TIME));
    }
    while (counts.received < delivered)
        for (u32 f = 1; f <= n; f++) {
            bool g;
            u64 t;
            u64 got = visit(f, g, t);
            if (g) {
                for (u64 k = 0; k < got; k++) one(f, t);
                must(fed.request(f, Kind::NER, MAX_TIME));
            }
            counts.steps++;
            fed.announce(f);
            carry_from(f, n);
        }
}
void updates(u32 receivers, u64 number) {
    u32 n = receivers + 1;
    fed.classes.resize(1);
    fed.owner = 1;
    for (u32 f = 1; f <= n; f++) {
        fed.join();
        counts.steps++;
    }
    for (u32 f = 2; f <= n; f++) {
        fed.classes[0].subscribers.push_back(f);
        counts.steps++;
    }
    counts.steps += 2;
    for (u32 f = 2; f <= n; f++) {
        Message m;
        m.kind = Message::Discovery;
        m.object = 1;
        fed.members[f]->in[1].put(std::move(m));
    }
    auto give = [&] {
        carry_from(1, n);
        for (u32 f = 2; f <= n; f++) {
            bool g;
            u64 t;
            visit(f, g, t);
        }
    };
    give();
    for (u64 k = 0; k < number; k++) {
        std::vector<Value> v;
        v.push_back({1, "8 bytes."});
        v.push_back({2, "8 bytes."});
        must(fed.update(1, v));
        counts.sent++;
        give();
    }
}
void queue(u32 n) {
    Random r;
    Heap h;
    u64 serial = 0;
    for (; serial < n; serial++) {
        Event *e = nullptr;
        (void)e;
        h.put({r.next() % (1 << 20), serial, 1, Share()});
    }
    for (u64 k = 0; k < 1000000; k++) {
        Waiting w = h.take();
        h.put({w.stamp + r.next() % (1 << 20), serial++, 1, Share()});
    }
    counts.queued = n + 1000000ull;
}
// The same on a heap whose events can also be taken out by their names, as the library's queue promises: a table has the stamp of each
// name that waits. What was taken out by its name stays in the heap until it comes to the front.
struct NamedHeap {
    Heap heap;
    std::unordered_map<u64, u64> stamps;
    static u64 name(u32 sender, u64 serial) { return serial << 5 | sender; }
    bool put(Waiting w) {
        if (!stamps.emplace(name(w.sender, w.serial), w.stamp).second) return false;
        heap.put(std::move(w));
        return true;
    }
    bool take(Waiting &w) {
        while (!heap.items.empty()) {
            w = heap.take();
            auto found = stamps.find(name(w.sender, w.serial));
            if (found == stamps.end() || found->second != w.stamp) continue;
            stamps.erase(found);
            return true;
        }
        return false;
    }
    bool remove(u32 sender, u64 serial) { return stamps.erase(name(sender, serial)) > 0; }
};
void named_queue(u32 n) {
    Random r;
    NamedHeap h;
    u64 serial = 0;
    for (; serial < n; serial++) h.put({r.next() % (1 << 20), serial, 1, Share()});
    for (u64 k = 0; k < 1000000; k++) {
        Waiting w;
        if (!h.take(w)) break;
        h.put({w.stamp + r.next() % (1 << 20), serial++, 1, Share()});
    }
    counts.queued = n + 1000000ull;
}

int main(int argc, char **argv) {
    auto n = [&](int i) { return i < argc ? (u64)atoll(argv[i]) : 0; };
    std::string what = argc > 1 ? argv[1] : "";
    if (what == "play") return play();
    if (what == "fed") return fed_text(n(2));
    auto start = std::chrono::steady_clock::now();
    if (what == "lockstep")
        lockstep(n(2), n(3), n(4));
    else if (what == "phold")
        phold(n(2), n(3), n(4), n(5));
    else if (what == "updates")
        updates(n(2), n(3));
    else if (what == "queue")
        queue(n(2));
    else if (what == "named_queue")
        named_queue(n(2));
    else
        return 2;
    double us = std::chrono::duration<double, std::micro>(std::chrono::steady_clock::now() - start).count();
    const char *names[] = {"steps", "sent", "received", "grants", "queued"};
    u64 all[] = {counts.steps, counts.sent, counts.received, counts.grants, counts.queued};
    for (int i = 0; i < 5; i++)
        if (all[i]) printf("%s %llu\n", names[i], (unsigned long long)all[i]);
    fprintf(stderr, "microseconds %.0f\n", us);
    if (counts.steps) fprintf(stderr, "steps per second %.0f\n", counts.steps / us * 1e6);
    if (counts.queued) fprintf(stderr, "queued per second %.0f\n", counts.queued / us * 1e6);
}
