// FED files and scripts of the yardstick.
#pragma once
#include <strings.h>

#include <chrono>
#include <cstdio>
#include <cstdlib>
#include <cstring>
#include <string>
#include <string_view>
#include <unordered_map>
#include <utility>
#include <vector>

#include "federation.hh"

// ---- FED files and scripts
struct Attr {
    std::string name;
    bool timestamp;
};
struct ObjClass {
    std::string path;
    int parent;
    std::vector<u32> own;
};
struct IntClass {
    std::string path;
    int parent;
    bool timestamp;
    std::vector<u32> own;
};
struct Catalogue {
    std::vector<ObjClass> objects;
    std::vector<IntClass> interactions;
    std::vector<Attr> attributes;
    std::vector<std::string> parameters;
    std::unordered_map<std::string, u32> object_paths, interaction_paths;
};
struct FedReader {
    const char *p, *end;
    Catalogue c;
    std::string token;
    int kind = 0;  // 1 (, 2 ), 3 word, 4 quoted, 0 end
    FedReader(const char *text, size_t n) : p(text), end(text + n) {}
    static bool blank(unsigned char b) { return b == ' ' || (b >= 9 && b <= 13); }
    void next() {
        for (;;) {
            while (p < end && blank(*p)) p++;
            if (p < end && *p == ';') {
                const char *q = (const char *)memchr(p, '\n', end - p);
                p = q ? q : end;
            } else
                break;
        }
        if (p == end) {
            kind = 0;
            return;
        }
        if (*p == '(') {
            p++;
            kind = 1;
            return;
        }
        if (*p == ')') {
            p++;
            kind = 2;
            return;
        }
        if (*p == '"') {
            const char *q = ++p;
            while (p < end && *p != '"') {
                if (*p == '\n') fault();
                p++;
            }
            if (p == end) fault();
            token.assign(q, p - q);
            p++;
            kind = 4;
            return;
        }
        const char *q = p;
        while (p < end && !blank(*p) && *p != '(' && *p != ')' && *p != ';' && *p != '"') {
            if ((unsigned char)*p < 0x20 || *p == 0x7f) fault();
            p++;
        }
        token.assign(q, p - q);
        kind = 3;
    }
    [[noreturn]] void fault() {
        fprintf(stderr, "fed fault\n");
        exit(1);
    }
    bool is(const char *w) { return kind == 3 && strcasecmp(token.c_str(), w) == 0; }
    void want(int k) {
        if (kind != k) fault();
        next();
    }
    std::string name() {
        if (kind != 3 && kind != 4) fault();
        std::string n = std::move(token);
        next();
        return n;
    }
    void skip() {
        int depth = 1;
        while (depth) {
            if (kind == 0) fault();
            if (kind == 1) depth++;
            if (kind == 2) depth--;
            if (depth) next();
        }
        next();
    }
    bool options() {
        bool ts = false, order = false;
        if (is("reliable") || is("best_effort")) next();
        if (is("receive")) {
            order = true;
            next();
        } else if (is("timestamp")) {
            order = ts = true;
            next();
        }
        if (order && (kind == 3 || kind == 4)) next();
        return ts;
    }
    bool has_attribute(int k, const std::string &n) {
        for (; k >= 0; k = c.objects[k].parent)
            for (u32 a : c.objects[k].own)
                if (c.attributes[a].name == n) return true;
        return false;
    }
    bool has_parameter(int k, const std::string &n) {
        for (; k >= 0; k = c.interactions[k].parent)
            for (u32 a : c.interactions[k].own)
                if (c.parameters[a] == n) return true;
        return false;
    }
    void object_class(int parent) {  // behind `( class`
        std::string n = name();
        int me = c.objects.size();
        std::string path = parent < 0 ? n : c.objects[parent].path + "." + n;
        c.object_paths.emplace(path, me + 1);
        c.objects.push_back({std::move(path), parent, {}});
        while (kind == 1) {
            next();
            if (is("class")) {
                next();
                object_class(me);
            } else if (is("attribute")) {
                next();
                std::string a = name();
                bool ts = options();
                while (kind == 1) {
                    next();
                    skip();
                }
                want(2);
                if (!has_attribute(me, a)) {
                    c.objects[me].own.push_back(c.attributes.size());
                    c.attributes.push_back({std::move(a), ts});
                }
            } else if (is("sec_level")) {
                next();
                skip();
            } else
                fault();
        }
        want(2);
    }
    void interaction_class(int parent) {
        std::string n = name();
        bool ts = options();
        int me = c.interactions.size();
        std::string path = parent < 0 ? n : c.interactions[parent].path + "." + n;
        c.interaction_paths.emplace(path, me + 1);
        c.interactions.push_back({std::move(path), parent, ts, {}});
        while (kind == 1) {
            next();
            if (is("class")) {
                next();
                interaction_class(me);
            } else if (is("parameter")) {
                next();
                std::string a = name();
                while (kind == 1) {
                    next();
                    skip();
                }
                want(2);
                if (!has_parameter(me, a)) {
                    c.interactions[me].own.push_back(c.parameters.size());
                    c.parameters.push_back(std::move(a));
                }
            } else if (is("sec_level")) {
                next();
                skip();
            } else
                fault();
        }
        want(2);
    }
    void read() {
        next();
        want(1);
        if (!is("FED")) fault();
        next();
        while (kind == 1) {
            next();
            if (is("objects")) {
                next();
                while (kind == 1) {
                    next();
                    if (!is("class")) fault();
                    next();
                    object_class(-1);
                }
                want(2);
            } else if (is("interactions")) {
                next();
                while (kind == 1) {
                    next();
                    if (!is("class")) fault();
                    next();
                    interaction_class(-1);
                }
                want(2);
            } else if (is("Federation") || is("FEDversion") || is("spaces") || is("federate")) {
                next();
                skip();
            } else
                fault();
        }
        want(2);
        if (kind != 0) fault();
    }
};
inline u32 by_path(const std::unordered_map<std::string, u32> &paths, std::string_view name, const auto &classes) {
    auto it = paths.find(std::string(name));
    if (it != paths.end()) return it->second;
    for (size_t k = 0; k < classes.size(); k++) {
        const std::string &p = classes[k].path;
        if (p.size() > name.size() && p.compare(p.size() - name.size(), name.size(), name) == 0 && p[p.size() - name.size() - 1] == '.')
            return k + 1;
    }
    return 0;
}
struct Object {
    u32 cls, owner;
    std::string name;
};
struct Record {
    u32 line;
    u32 federate;
    std::string said;
};
struct Player {
    Catalogue c;
    std::string out;
    std::vector<std::string> names;
    std::unordered_map<std::string_view, u32> joined;
    std::vector<Object> objects;
    std::vector<Record> records;
    std::vector<std::vector<u32>> object_subscribers;
    size_t begun = 0;
    void n(u64 v) {
        char b[24];
        int k = snprintf(b, 24, "%llu", (unsigned long long)v);
        out.append(b, k);
    }
    void say_event(const Event &e) {
        n(e.sender);
        out += '.';
        n(e.serial);
    }
    void values(const Event &e) {
        for (const Value &v : e.values) {
            out += ' ';
            out += e.is_update ? c.attributes[v.handle - 1].name : c.parameters[v.handle - 1];
            out += '=';
            out += v.bytes;
        }
    }
    void callback(const Callback &k, bool in_order) {
        switch (k.what) {
            case Callback::Nothing:
                out += " nothing";
                break;
            case Callback::Discover:
                out += " discover ";
                n(k.object);
                out += ' ';
                out += c.objects[objects[k.object - 1].cls - 1].path;
                out += ' ';
                out += objects[k.object - 1].name;
                break;
            case Callback::Received: {
                const Event &e = *k.event.event;
                if (e.is_update) {
                    out += " reflect ";
                    n(e.target);
                } else {
                    out += " receive ";
                    out += c.interactions[e.target - 1].path;
                }
                values(e);
                out += e.ordered ? (in_order ? " TSO " : " RO ") : " RO";
                if (e.ordered) {
                    n(e.stamp);
                    out += ' ';
                    say_event(e);
                }
                break;
            }
            case Callback::Regulating:
                out += " regulationEnabled ";
                n(k.time);
                break;
            case Callback::Constrained:
                out += " constrainedEnabled ";
                n(k.time);
                break;
            case Callback::Grant:
                out += " grant ";
                n(k.time);
                break;
        }
    }
    void line(u32 number, const std::vector<std::string_view> &w) {
        n(number);
        out += " ok";
        std::string_view a = w[0];
        auto who = [&](std::string_view s) {
            auto it = joined.find(s);
            return it == joined.end() ? 0u : it->second;
        };
        u32 f = 0;
        if (a == "create") {
        } else if (a == "join") {
            fed.join();
            names.emplace_back(w[1]);
            joined[w[1]] = fed.count();
            out += ' ';
            n(fed.count());
        } else if (a == "carry") {
            u32 from = who(w[1]), to = who(w[2]);
            Wire &wire = fed.members[to]->in[from];
            if (!wire.count)
                out += " none";
            else {
                const Message &m = wire.ring[wire.first];
                if (m.kind == Message::Null) {
                    out += " null ";
                    n(m.bound);
                } else if (m.kind == Message::Discovery) {
                    out += " discovery ";
                    n(m.object);
                } else {
                    out += " event ";
                    say_event(*m.event.event);
                }
            }
            fed.carry(from, to);
        } else if (a == "announce") {
            f = who(w[1]);
            u64 p = fed.announce(f);
            if (p) {
                out += ' ';
                n(p);
            } else
                out += " none";
        } else {
            f = who(a);
            std::string_view v = w[1];
            if (v == "tick") {
                bool in_order =
                    fed.members[f]->ro.empty() || (fed.members[f]->constrained == Role::Yes && fed.members[f]->advance == Kind::None);
                Callback k = fed.tick(f);
                callback(k, in_order);
            } else if (v == "send") {
                u32 k = by_path(c.interaction_paths, w[2], c.interactions);
                std::vector<Value> vs;
                u64 stamp = FOREVER;
                size_t last = w.size();
                if (w[last - 1][0] == '@') stamp = strtoull(w[--last].data() + 1, nullptr, 10);
                for (size_t i = 3; i < last; i++) {
                    size_t at = w[i].find('=');
                    std::string_view nm = w[i].substr(0, at);
                    u32 h = 0;
                    for (int q = k - 1; q >= 0 && !h; q = c.interactions[q].parent)
                        for (u32 x : c.interactions[q].own)
                            if (c.parameters[x] == nm) h = x + 1;
                    vs.push_back({h, std::string(w[i].substr(at + 1))});
                }
                bool timed = stamp != FOREVER && c.interactions[k - 1].timestamp && fed.members[f]->regulating == Role::Yes;
                u64 serial = 0;
                Role was = fed.members[f]->regulating;
                if (!timed) fed.members[f]->regulating = Role::No;
                Fault x = fed.send(f, k, vs, timed ? stamp : 0, serial);
                fed.members[f]->regulating = was;
                if (x != Fault::None) {
                    fprintf(stderr, "fault %u\n", (u32)x);
                    exit(1);
                }
                if (timed) {
                    out += ' ';
                    n(f);
                    out += '.';
                    n(serial);
                }
            } else if (v == "update") {
                u32 o = strtoul(w[2].data(), nullptr, 10);
                std::vector<Value> vs;
                u32 k = objects[o - 1].cls;
                for (size_t i = 4; i < w.size(); i++) {
                    size_t at = w[i].find('=');
                    std::string_view nm = w[i].substr(0, at);
                    u32 h = 0;
                    for (int q = k - 1; q >= 0 && !h; q = c.objects[q].parent)
                        for (u32 x : c.objects[q].own)
                            if (c.attributes[x].name == nm) h = x + 1;
                    vs.push_back({h, std::string(w[i].substr(at + 1))});
                }
                std::sort(vs.begin(), vs.end(), [](auto &x, auto &y) { return x.handle < y.handle; });
                Federate &me = *fed.members[f];
                Share e(new Event{0, f, me.serial++, 0, false, o, true, std::move(vs)});
                for (u32 g : object_subscribers[k - 1])
                    if (g != f) {
                        Message m;
                        m.kind = Message::AnEvent;
                        m.event = Share(e);
                        fed.members[g]->in[f].put(std::move(m));
                    }
            } else if (v == "publishInteraction") {
                u32 k = by_path(c.interaction_paths, w[2], c.interactions);
                fed.classes[k - 1].published[f] = true;
            } else if (v == "subscribeInteraction") {
                u32 k = by_path(c.interaction_paths, w[2], c.interactions);
                fed.classes[k - 1].subscribers.push_back(f);
            } else if (v == "publishObject") {
            } else if (v == "subscribeObject") {
                u32 k = by_path(c.object_paths, w[2], c.objects);
                object_subscribers[k - 1].push_back(f);
            } else if (v == "register") {
                u32 k = by_path(c.object_paths, w[2], c.objects);
                u32 h = objects.size() + 1;
                objects.push_back({k, f, "object-" + std::to_string(h)});
                for (u32 g : object_subscribers[k - 1])
                    if (g != f) {
                        Message m;
                        m.kind = Message::Discovery;
                        m.object = h;
                        fed.members[g]->in[f].put(std::move(m));
                    }
                out += ' ';
                n(h);
                out += ' ';
                out += objects.back().name;
            } else if (v == "regulate")
                fed.regulate(f, strtoull(w[3].data(), nullptr, 10));
            else if (v == "constrain")
                fed.constrain(f);
            else if (v == "tar") {
                Fault x = fed.request(f, Kind::TAR, strtoull(w[2].data(), nullptr, 10));
                if (x != Fault::None) exit(1);
            } else {
                fprintf(stderr, "word %.*s\n", (int)v.size(), v.data());
                exit(1);
            }
        }
        records.push_back({number, f, out.substr(begun)});
        out += '\n';
        begun = out.size();
    }
};
inline int play() {
    std::string text;
    char buf[65536];
    size_t k;
    while ((k = fread(buf, 1, sizeof buf, stdin)) > 0) text.append(buf, k);
    size_t cut = text.find("\n%%\n");
    if (cut == std::string::npos) return 1;
    FedReader r(text.data(), cut + 1);
    r.read();
    Player p;
    p.c = std::move(r.c);
    fed.classes.resize(p.c.interactions.size());
    p.object_subscribers.resize(p.c.objects.size());
    for (size_t q = 0; q < p.c.interactions.size(); q++)
        fed.classes[q].parameter = p.c.interactions[q].own.empty() ? 0 : p.c.interactions[q].own[0] + 1;
    u32 number = 0;
    std::vector<std::string_view> words;
    const char *at = text.data() + cut + 4, *end = text.data() + text.size();
    while (at < end) {
        const char *e = (const char *)memchr(at, '\n', end - at);
        if (!e) e = end;
        number++;
        words.clear();
        for (const char *q = at; q < e;) {
            while (q < e && (*q == ' ' || *q == '\t')) q++;
            const char *b = q;
            while (q < e && *q != ' ' && *q != '\t') q++;
            if (q > b) words.push_back({b, (size_t)(q - b)});
        }
        if (!words.empty() && words[0][0] != '#') p.line(number, words);
        at = e + 1;
    }
    fwrite(p.out.data(), 1, p.out.size(), stdout);
    return 0;
}
inline int fed_text(u64 bytes) {
    std::string t = "(FED (objects\n";
    char b[256];
    for (u32 k = 0; k < 500; k++)
        if (t.size() < bytes) {
            t.append(b, snprintf(b, 256, " (class Class-of-objects-%u\n", k));
            for (u32 i = 0; i < 8; i++)
                t.append(b, snprintf(b, 256, "  (attribute Attribute-%u-of-the-class-%u reliable timestamp)\n", i, k));
            t += " )\n";
        }
    t += "))\n";
    u64 volume = 64u << 20;
    auto start = std::chrono::steady_clock::now();
    u64 total = 0, classes = 0;
    for (u64 k = 0; k < volume / t.size(); k++) {
        FedReader r(t.data(), t.size());
        r.read();
        total += t.size();
        classes += r.c.attributes.size();
    }
    double us = std::chrono::duration<double, std::micro>(std::chrono::steady_clock::now() - start).count();
    printf("bytes %llu\n", (unsigned long long)total);
    fprintf(stderr, "microseconds %.0f\nbytes per second %.0f\n", us, total / us * 1e6);
    return classes ? 0 : 1;
}
