// A plain runner of calls, which nobody proved, for `make bench` to compare with: the same gateways, shards, locks and queues as those of `mgcall run`, with
// histories, transcripts, their comparison, and each call alone once more, but with the word `once`. It reads no script and no plan: its calls go by one script, in which line
// a goes off hook and on again, and each call does so a number of times, the later ones as calls that begin on its lines.
//     plain_runner CALLS ROUNDS SHARDS WORKERS [once]
// prints the events, the seconds by the clock of opening, steps, comparison, and replay, and the processor seconds of all.
#include <atomic>
#include <chrono>
#include <cstdint>
#include <cstring>
#include <cstdio>
#include <cstdlib>
#include <memory>
#include <mutex>
#include <optional>
#include <set>
#include <thread>
#include <unordered_map>
#include <vector>
#include <sys/resource.h>

using Number = uint32_t;
enum Kind : uint8_t { ON, OFF, FLASH };
enum Mode : uint8_t { INACTIVE, SEND_ONLY, RECEIVE_ONLY, SEND_RECEIVE };
enum class Operation : uint8_t { ADD, MODIFY, SUBTRACT, SUBTRACT_ALL };
constexpr Number NONE = 0xFFFFFFFF;

// ---- the script

struct Item { Kind kind; bool state; };
using Items = std::vector<Item>;
struct Command { Operation operation; int context = -1; bool creates = false; int line = 0; int mode = -1; int events = -1; int signals = -1; };
struct State { std::vector<Command> commands; bool end = false; int ok = -1, fault = -1, timer = -1; int on[2][3] = {{-1, -1, -1}, {-1, -1, -1}}; };
struct Script { std::vector<Items> lists; std::vector<State> states; int start = 0, restart = 4; };

static Script watch() {
    Script script;
    script.lists = {{}, {{OFF, false}}, {{ON, true}}};
    script.states.resize(5);
    auto modify = [](int line, int events, int signals) { return Command{Operation::MODIFY, -1, false, line, -1, events, signals}; };
    script.states[0].on[0][OFF] = 1;
    script.states[1].commands = {modify(0, 2, 1)};
    script.states[1].fault = 2;
    script.states[1].on[0][ON] = 2;
    script.states[2].commands = {modify(0, 1, 0)};
    script.states[2].ok = 3;
    script.states[2].fault = 2;
    script.states[3].end = true;
    script.states[4].commands = {modify(0, 1, 0), modify(1, 1, 0)};
    script.states[4].ok = 3;
    script.states[4].fault = 4;
    return script;
}

// ---- messages and events

struct Order { Operation operation; Number context; bool creates; Number line; int mode; const Items* events; int signals; };
struct Request { Number call = 0; uint64_t association = 0; Number number = 0; std::vector<Order> orders; };
struct Done { Number context = NONE; std::vector<Number> freed; };
struct Reply { Number call; uint64_t association; Number number; std::vector<Done> results; int failed = -1; };
struct Note { Number call; uint64_t association; Number number; Number line; Number request; Kind kind; };
enum class What : uint8_t { HOOK, EXECUTE, REPLY, PASS, NOTE, HEAR, BEGIN, RESTART };
struct Event {
    What what; Number call; uint64_t number; Number line = 0; Kind kind = ON;
    bool operator==(const Event& o) const { return what == o.what && call == o.call && number == o.number && line == o.line && kind == o.kind; }
};

// ---- the gateway

struct Row { Number context = 0; Mode mode = INACTIVE; const Items* list; Number request = 0; int signals = 0; bool off_hook = false; Number holder; };
struct Link { Number last = 0; std::optional<Reply> reply; Number notes = 0; std::vector<Number> lines; bool retired = false; };
struct Gateway {
    uint64_t association = 1;
    std::unordered_map<Number, Row> rows;
    std::unordered_map<Number, std::vector<Number>> contexts;
    std::unordered_map<Number, Link> links;
    Number next, stride;
    Items empty;

    void open(Number call, const std::vector<Number>& lines, const Items* armed) {
        for (Number line : lines) { Row row; row.list = armed; row.holder = call; rows.emplace(line, row); }
        links[call].lines = lines;
    }
    std::optional<Note> raise(Number line, Row& row, Kind kind) {
        for (const Item& item : *row.list)
            if (item.kind == kind) {
                row.signals = 0;
                return Note{row.holder, association, ++links[row.holder].notes, line, row.request, kind};
            }
        return {};
    }
    bool hook(Number line, bool off, std::optional<Note>& note) {
        auto found = rows.find(line);
        if (found == rows.end() || found->second.off_hook == off) return false;
        found->second.off_hook = off;
        note = raise(line, found->second, off ? OFF : ON);
        return true;
    }
    void leave(Number line, Row& row) {
        auto found = contexts.find(row.context);
        if (found == contexts.end()) return;
        std::erase(found->second, line);
        if (found->second.empty()) contexts.erase(found);
        row.context = 0;
    }
    bool carry_out(const Order& order, const Request& request, Done& done, std::vector<Number>& armed) {
        if (order.operation == Operation::SUBTRACT_ALL) {
            auto found = contexts.find(order.context);
            if (found == contexts.end()) return false;
            done.freed = found->second;
            for (Number line : done.freed) { Row& row = rows[line]; row.context = 0; row.mode = INACTIVE; row.list = &empty; row.signals = 0; }
            contexts.erase(found);
            return true;
        }
        auto found = rows.find(order.line);
        if (found == rows.end()) return false;
        Row& row = found->second;
        if (order.operation == Operation::ADD) {
            if (row.context != 0) return false;
            row.context = order.creates ? (next += stride) : order.context;
            if (!order.creates && !contexts.count(order.context)) { row.context = 0; return false; }
            contexts[row.context].push_back(order.line);
            if (order.creates) done.context = row.context;
        } else if (row.context != order.context) return false;
        if (order.operation == Operation::SUBTRACT) { leave(order.line, row); row.mode = INACTIVE; row.list = &empty; row.signals = 0; done.freed = {order.line}; return true; }
        if (order.mode >= 0) row.mode = Mode(order.mode);
        if (order.signals >= 0) row.signals = order.signals;
        if (order.events) { row.list = order.events; row.request = request.number; armed.push_back(order.line); }
        return true;
    }
    // what a request comes to: its reply, or the one that was kept; nothing where it is discarded
    bool execute(const Request& request, Reply& reply, std::vector<Note>& notes) {
        auto found = links.find(request.call);
        if (found == links.end() || found->second.retired || request.association != association || request.number < found->second.last) return false;
        Link& link = found->second;
        if (request.number == link.last) { reply = *link.reply; return true; }
        reply = Reply{request.call, association, request.number, {}, -1};
        std::vector<Number> armed;
        for (size_t place = 0; place < request.orders.size(); place++) {
            Done done;
            if (!carry_out(request.orders[place], request, done, armed)) { reply.failed = int(place); break; }
            reply.results.push_back(std::move(done));
        }
        for (Number line : armed) {
            Row& row = rows[line];
            if (row.request != request.number) continue;
            for (const Item& item : *row.list)
                if (item.state && (item.kind == OFF) == row.off_hook)
                    if (auto note = raise(line, row, item.kind)) notes.push_back(*note);
        }
        link.last = request.number;
        link.reply = reply;
        return true;
    }
    bool begin(Number old, Number call) {
        auto found = links.find(old);
        if (found == links.end() || found->second.retired || links.count(call)) return false;
        for (Number line : found->second.lines) { const Row& row = rows[line]; if (row.context || row.signals || row.list->size() != 1) return false; }
        std::vector<Number> lines = found->second.lines;
        found->second.retired = true;
        found->second.reply.reset();
        for (Number line : lines) rows[line].holder = call;
        links[call].lines = std::move(lines);
        return true;
    }
    void restart() {
        association++;
        contexts.clear();
        for (auto& [line, row] : rows) { row.context = 0; row.mode = INACTIVE; row.list = &empty; row.signals = 0; }
        for (auto& [call, link] : links) { link.last = 0; link.reply.reset(); }
    }
};

// ---- the agent of a call

enum class Phase : uint8_t { RESTS, WAITS, WAITS_FOR_NOTHING };
struct Agent {
    Number call; int state = 0; Phase phase = Phase::RESTS; uint64_t association = 1; Number next = 1;
    Number lines[2]; Number contexts[4] = {NONE, NONE, NONE, NONE}; Number expected[2] = {0, 0};
    std::set<Number> accepted;
    Request request;

    void enter(const Script& script, int target) {
        state = target;
        const State& entered = script.states[target];
        request = Request{call, association, next, {}};
        for (const Command& command : entered.commands) {
            Number context = command.context < 0 ? 0 : contexts[command.context];
            if (context == NONE && !command.creates) continue;
            request.orders.push_back(Order{command.operation, context, command.creates, lines[command.line], command.mode, command.events < 0 ? nullptr : &script.lists[command.events], command.signals});
        }
        if (request.orders.empty()) { phase = Phase::WAITS_FOR_NOTHING; return; }
        phase = Phase::WAITS;
        next++;
    }
    bool follow(const Script& script, int target) {
        if (target < 0) { phase = Phase::RESTS; return true; }
        enter(script, target);
        return true;
    }
    bool reply(const Script& script, const Reply& reply) {
        if (phase != Phase::WAITS || reply.number != request.number || reply.association != association) return false;
        const State& now = script.states[state];
        if (reply.failed >= 0 && now.fault < 0) return false;
        for (size_t place = 0; place < reply.results.size(); place++)
            for (int line = 0; line < 2; line++)
                if (request.orders[place].line == lines[line] && request.orders[place].events) expected[line] = reply.number;
        return follow(script, reply.failed >= 0 ? now.fault : now.ok);
    }
    bool pass(const Script& script) { return phase == Phase::WAITS_FOR_NOTHING && follow(script, script.states[state].ok); }
    bool note(const Script& script, const Note& note) {
        if (phase != Phase::RESTS || script.states[state].end || note.association != association || !accepted.insert(note.number).second) return false;
        for (int line = 0; line < 2; line++)
            if (lines[line] == note.line && expected[line] == note.request && script.states[state].on[line][note.kind] >= 0) enter(script, script.states[state].on[line][note.kind]);
        return true;
    }
    bool hear(const Script& script, uint64_t heard) {
        if (heard <= association) return false;
        association = heard;
        for (Number& context : contexts) context = NONE;
        for (Number& line : expected) line = NONE;
        accepted.clear();
        enter(script, script.restart);
        return true;
    }
    bool has_ended(const Script& script) const { return phase == Phase::RESTS && script.states[state].end; }
    void begin(const Script& script, Number number) { call = number; state = script.start; accepted.clear(); for (Number& context : contexts) context = NONE; }
};

// ---- shards

enum class Step : uint8_t { OFF_A, ON_A, NOTE, EXECUTE, REPLY, PASS, HEAR, BEGIN, RESTART };
struct Slot { Agent agent; size_t events = 0; Number first = 1; std::vector<Request> requests; std::vector<Reply> replies; std::vector<Note> notes; size_t settled = 0; };
struct Call { Agent agent; std::vector<Event> transcript; };
struct Shard {
    const Script* script;
    Gateway gateway;
    std::unordered_map<Number, Slot> slots;
    std::vector<Event> history;
    std::mutex lock;

    Call open(Number call, const std::vector<Number>& lines) {
        Agent agent;
        agent.call = call;
        agent.state = script->start;
        for (int line = 0; line < 2; line++) agent.lines[line] = lines[line];
        gateway.open(call, lines, &script->lists[1]);
        slots[call].agent = agent;
        return Call{agent, {}};
    }
    std::optional<Event> meaning(Number call, Number next, Step step) {
        auto found = slots.find(call);
        if (found == slots.end()) return {};
        Slot& slot = found->second;
        switch (step) {
        case Step::OFF_A: return Event{What::HOOK, call, 0, slot.agent.lines[0], OFF};
        case Step::ON_A: return Event{What::HOOK, call, 0, slot.agent.lines[0], ON};
        case Step::EXECUTE: if (slot.requests.empty()) return {}; return Event{What::EXECUTE, call, slot.requests.back().number};
        case Step::REPLY: if (slot.replies.empty()) return {}; return Event{What::REPLY, call, slot.replies.back().number};
        case Step::PASS: return Event{What::PASS, call, 0};
        case Step::HEAR: return Event{What::HEAR, call, gateway.association};
        case Step::BEGIN: return Event{What::BEGIN, next, call};
        case Step::NOTE:
            for (; slot.settled < slot.notes.size(); slot.settled++) {
                const Note& note = slot.notes[slot.settled];
                if (note.association == slot.agent.association && !slot.agent.accepted.count(note.number)) return Event{What::NOTE, call, note.number};
            }
            return {};
        default: return {};
        }
    }
    bool at_agent(Slot& slot, Agent& agent, const Event& event) {
        switch (event.what) {
        case What::REPLY: return agent.reply(*script, slot.replies[slot.replies.size() - 1]);
        case What::PASS: return agent.pass(*script);
        case What::NOTE: return agent.note(*script, slot.notes[event.number - 1]);
        default: return agent.hear(*script, event.number);
        }
    }
    bool step(Call& call, const Event& event) {
        Number number = event.what == What::BEGIN ? Number(event.number) : event.call;
        auto found = slots.find(number);
        if (found == slots.end() || found->second.events != call.transcript.size()) return false;
        Slot& slot = found->second;
        if (event.what == What::HOOK) {
            std::optional<Note> note;
            if (!gateway.hook(event.line, event.kind == OFF, note)) return false;
            if (note) slot.notes.push_back(*note);
        } else if (event.what == What::EXECUTE) {
            Reply reply;
            if (gateway.execute(slot.requests[event.number - slot.first], reply, slot.notes)) slot.replies.push_back(std::move(reply));
        } else if (event.what == What::BEGIN) {
            if (!call.agent.has_ended(*script) || call.agent.association != gateway.association || !gateway.begin(number, event.call)) return false;
            Slot begun;
            begun.agent = std::move(slot.agent);
            begun.first = begun.agent.next;
            begun.agent.begin(*script, event.call);
            begun.events = 1;
            slots.erase(found);
            slots.emplace(event.call, std::move(begun));
            call.agent.begin(*script, event.call);
            call.transcript.assign(1, event);
            history.push_back(event);
            return true;
        } else {
            Phase before = slot.agent.phase;
            Number next = slot.agent.next;
            if (!at_agent(slot, slot.agent, event) || !at_agent(slot, call.agent, event)) return false;
            if (slot.agent.next != next || (before != Phase::WAITS && slot.agent.phase == Phase::WAITS)) slot.requests.push_back(slot.agent.request);
        }
        slot.events++;
        call.transcript.push_back(event);
        history.push_back(event);
        return true;
    }
    void restart() { gateway.restart(); history.push_back(Event{What::RESTART, 0, 0}); }
};

// ---- the queue: bounded, of many producers and consumers, as crossbeam's

struct Course { Number number; Number standing; Call call; std::vector<Event> trail; std::vector<uint64_t> marks; std::vector<std::pair<size_t, size_t>> gone; size_t place = 0, idle = 0; };
struct Queue {
    struct Cell { std::atomic<size_t> turn; std::unique_ptr<Course> course; };
    std::unique_ptr<Cell[]> cells;
    size_t mask;
    std::atomic<size_t> head{0}, tail{0};
    explicit Queue(size_t room) {
        size_t size = 2;
        while (size < room) size *= 2;
        cells.reset(new Cell[size]);
        mask = size - 1;
        for (size_t place = 0; place < size; place++) cells[place].turn = place;
    }
    bool push(std::unique_ptr<Course>& course) {
        for (size_t at = tail;;) {
            Cell& cell = cells[at & mask];
            intptr_t ahead = intptr_t(cell.turn.load()) - intptr_t(at);
            if (ahead == 0) { if (tail.compare_exchange_weak(at, at + 1)) { cell.course = std::move(course); cell.turn = at + 1; return true; } }
            else if (ahead < 0) return false;
            else at = tail;
        }
    }
    std::unique_ptr<Course> pop() {
        for (size_t at = head;;) {
            Cell& cell = cells[at & mask];
            intptr_t ahead = intptr_t(cell.turn.load()) - intptr_t(at + 1);
            if (ahead == 0) { if (head.compare_exchange_weak(at, at + 1)) { auto course = std::move(cell.course); cell.turn = at + mask + 1; return course; } }
            else if (ahead < 0) return nullptr;
            else at = head;
        }
    }
};

// ---- a run

static void step(Shard& shard, Course& course, Step what) {
    course.marks.push_back(shard.gateway.association);
    Number next = course.standing + 10000;
    auto event = shard.meaning(course.standing, next, what);
    if (!event) { course.idle++; return; }
    std::vector<Event> before;
    if (what == Step::BEGIN) before = course.call.transcript;
    if (!shard.step(course.call, *event)) { course.idle++; return; }
    if (what == Step::BEGIN) {
        course.gone.emplace_back(before.size(), course.idle);
        course.trail.insert(course.trail.end(), before.begin(), before.end());
        course.standing = next;
        course.idle = 0;
    }
}

static double now() { return std::chrono::duration<double>(std::chrono::steady_clock::now().time_since_epoch()).count(); }
static void fail(const char* why) { std::fprintf(stderr, "plain_runner: %s\n", why); std::exit(1); }

static bool agree(const std::vector<std::unique_ptr<Shard>>& shards, const std::vector<std::unique_ptr<Course>>& courses) {
    std::vector<size_t> places(courses.size());
    for (const auto& shard : shards)
        for (const Event& event : shard->history) {
            if (event.what == What::RESTART) continue;
            const Course& course = *courses[event.call % 10000];
            size_t place = places[course.number]++, before = course.trail.size();
            const Event* there = place < before ? &course.trail[place] : place - before < course.call.transcript.size() ? &course.call.transcript[place - before] : nullptr;
            if (!there || !(*there == event)) return false;
        }
    for (const auto& course : courses)
        if (places[course->number] != course->trail.size() + course->call.transcript.size()) return false;
    return true;
}

static bool replays_alike(const Script& script, const std::vector<Step>& steps, const Course& course) {
    Shard shard;
    shard.script = &script;
    shard.gateway.next = 0;
    shard.gateway.stride = 1;
    Course alone{course.number, course.number, shard.open(course.number, {2 * course.number + 1, 2 * course.number + 2}), {}, {}, {}};
    for (Step what : steps) step(shard, alone, what);
    return alone.gone == course.gone && alone.idle == course.idle && alone.call.transcript.size() == course.call.transcript.size() && alone.call.agent.state == course.call.agent.state
        && alone.call.agent.phase == course.call.agent.phase;
}

int main(int count, char** words) {
    bool again = count == 5;
    if (!again && (count != 6 || std::strcmp(words[5], "once"))) fail("CALLS ROUNDS SHARDS WORKERS [once]");
    size_t calls = std::atoi(words[1]), rounds = std::atoi(words[2]), shard_count = std::atoi(words[3]), workers = std::atoi(words[4]);
    Script script = watch();
    const std::vector<Step> round = {Step::OFF_A, Step::NOTE, Step::EXECUTE, Step::REPLY, Step::ON_A, Step::NOTE, Step::EXECUTE, Step::REPLY, Step::PASS};
    std::vector<Step> steps = round;
    for (size_t more = 1; more < rounds; more++) { steps.push_back(Step::BEGIN); steps.insert(steps.end(), round.begin(), round.end()); }

    double began = now();
    std::vector<std::unique_ptr<Shard>> shards;
    for (size_t number = 0; number < shard_count; number++) {
        shards.push_back(std::make_unique<Shard>());
        shards.back()->script = &script;
        shards.back()->gateway.next = Number(number);
        shards.back()->gateway.stride = Number(shard_count);
    }
    std::vector<std::unique_ptr<Queue>> queues;
    for (size_t number = 0; number < shard_count; number++) queues.push_back(std::make_unique<Queue>(std::max<size_t>(calls, 1)));
    for (size_t number = 0; number < calls; number++) {
        auto course = std::make_unique<Course>();
        course->number = course->standing = Number(number);
        course->call = shards[number % shard_count]->open(Number(number), {Number(2 * number + 1), Number(2 * number + 2)});
        queues[number % shard_count]->push(course);
    }
    double opened = now();
    std::vector<std::vector<std::unique_ptr<Course>>> done(workers);
    auto serve = [&](size_t worker, size_t number) {
        Shard& shard = *shards[number];
        Queue& queue = *queues[number];
        while (auto course = queue.pop()) {
            for (int turn = 0; turn < 8 && course->place < steps.size(); turn++, course->place++) {
                std::lock_guard<std::mutex> held(shard.lock);
                step(shard, *course, steps[course->place]);
            }
            if (course->place == steps.size()) done[worker].push_back(std::move(course));
            else while (!queue.push(course)) {}
        }
    };
    auto work = [&](size_t worker) {
        for (size_t turn = 0; turn < shard_count; turn++) serve(worker, (worker * shard_count / workers + turn) % shard_count);
    };
    std::vector<std::thread> threads;
    for (size_t worker = 1; worker < workers; worker++) threads.emplace_back(work, worker);
    work(0);
    for (auto& thread : threads) thread.join();
    std::vector<std::unique_ptr<Course>> courses(calls);
    for (auto& own : done) for (auto& course : own) { Number number = course->number; courses[number] = std::move(course); }
    double stepped = now();
    for (const auto& course : courses) if (course->idle) fail("a step couldn't happen");
    if (!agree(shards, courses)) fail("the shards and the calls disagree");
    size_t events = 0;
    for (const auto& shard : shards) events += shard->history.size();
    double compared = now();
    std::atomic<size_t> next{0};
    std::atomic<bool> alike{true};
    auto replay = [&] { for (size_t number; again && (number = next++) < calls;) if (!replays_alike(script, steps, *courses[number])) alike = false; };
    threads.clear();
    for (size_t worker = 1; worker < workers; worker++) threads.emplace_back(replay);
    replay();
    for (auto& thread : threads) thread.join();
    if (!alike) fail("a call alone goes another way");
    double replayed = now();
    rusage usage;
    getrusage(RUSAGE_SELF, &usage);
    double busy = double(usage.ru_utime.tv_sec + usage.ru_stime.tv_sec) + 1e-6 * double(usage.ru_utime.tv_usec + usage.ru_stime.tv_usec);
    std::printf("%zu %.4f %.4f %.4f %.4f %.4f\n", events, opened - began, stepped - opened, compared - stepped, replayed - compared, busy);
}
