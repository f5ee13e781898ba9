// The calls of `tests/tuned_runner.cpp`: for each its agent and its part of the gateway, and what a step does to both.
#pragma once
#include "tuned_input.hpp"
#include <memory>
#include <mutex>

// ---- calls: for each its agent, and its part of the gateway

// Sixteen bytes, which are compared as two numbers. `number` is that of a message, of an association, or of the call on whose lines one begins.
struct Event { uint32_t call, number, line; uint16_t detail; Verb verb; Place spare; };
static bool are_same(const Event& one, const Event& other) {
    uint64_t first[2], second[2];
    static_assert(sizeof(Event) == sizeof first, "an event has no gaps");
    std::memcpy(first, &one, sizeof first);
    std::memcpy(second, &other, sizeof second);
    return first[0] == second[0] && first[1] == second[1];
}
struct Order { Place command, context, termination, second, remote; };
struct Request { uint32_t number, association; Place count, state; bool creates; Order orders[COMMANDS]; };
// What was created, and the terminations that were freed, by bits.
struct Done { uint32_t freed; Place context, ephemeral; };
struct Reply { uint32_t number; uint16_t code; Place count; Done results[COMMANDS]; };
struct Note { uint32_t association, request; uint64_t symbols; Place line, kind, length; bool is_accepted; };
enum class Phase : Place { RESTS, AWAITS_REPLY, AWAITS_PASS };
struct Row { Place context, mode, remote; };
struct Line { uint32_t number, request; uint64_t symbols; uint16_t alternatives; Place list, playing, length; bool is_off, is_completed; };
struct Retired { uint32_t events, idle; Place state; };
// The step at which a call met restarts, and the association that it found.
struct Met { const Step* step; uint32_t association; };
struct alignas(64) Call {
    // the agent
    uint32_t number, association, next, first;
    uint32_t expected[NAMES];
    Place contexts[NAMES], ephemerals[NAMES], state;
    Phase phase;
    // how far it is
    const Step* step;
    Event* transcript;
    Retired* retired;
    Met* met;
    uint32_t went_through, events, idle, begun, restarted;
    // its link: the last request that was executed, the notes that were sent, and how many of them can't be the oldest that waits
    Note* notes;
    uint32_t executed, sent, settled;
    // its part of the connection model, of this association: what exists, and which numbers can't be given
    uint32_t known, exist, used, used_contexts;
    bool has_reply, has_cuts;
    Row rows[ROOM];
    Line lines[NAMES];
    uint32_t members[ROOM];
    Request request;
    Reply reply;
    uint32_t cuts[ROOM];
};
struct alignas(64) Shard {
    const Script* script;
    Event* history;
    size_t happened = 0;
    uint32_t association = 1;
    uint32_t line_bits;
    std::vector<size_t> restarts;
    std::mutex lock;
};

static void clear_line(Line& line) { line.list = 0; line.request = NO_NUMBER; line.symbols = 0; line.length = 0; line.playing = 0; line.is_completed = false; }
static void clear_names(Call& call) {
    std::memset(call.contexts, NONE, sizeof call.contexts);
    std::memset(call.ephemerals, NONE, sizeof call.ephemerals);
}
static void clear_rows(Call& call, uint32_t line_bits) {
    for (Row& row : call.rows) row = {IN_NULL, 0, NONE};
    std::memset(call.members, 0, sizeof call.members);
    std::memset(call.cuts, 0, sizeof call.cuts);
    call.exist = call.used = line_bits;
    call.used_contexts = 0;
    call.has_cuts = false;
}
// what a restart took away of the call's part of the gateway, once the call is met
static void meet_restart(const Shard& shard, Call& call) {
    clear_rows(call, shard.line_bits);
    for (Line& line : call.lines) clear_line(line);
    call.executed = 0;
    call.known = shard.association;
}
static void begin_agent(const Script& script, Call& call) {
    clear_names(call);
    call.state = script.start;
    call.phase = Phase::RESTS;
    call.first = call.next;
    call.executed = call.sent = call.settled = 0;
    call.has_reply = false;
}

// ---- the gateway

static void send_note(Call& call, Place line, Place kind, uint64_t symbols = 0, Place length = 0) {
    call.notes[call.sent++] = {call.known, call.lines[line].request, symbols, line, kind, length, false};
}
static bool hook(const Script& script, Call& call, Place place, bool goes_off) {
    Line& line = call.lines[place];
    if (line.is_off == goes_off) return false;
    line.is_off = goes_off;
    if (!(script.lists[line.list].named >> goes_off & 1)) return true;
    line.playing = 0;
    send_note(call, place, goes_off ? OFF : ON);
    return true;
}
static bool flash(const Script& script, Call& call, Place place) {
    Line& line = call.lines[place];
    if (!line.is_off) return false;
    if (!(script.lists[line.list].named >> FLASH & 1)) return true;
    line.playing = 0;
    send_note(call, place, FLASH);
    return true;
}
static void complete(Call& call, Place place, bool is_matched) {
    Line& line = call.lines[place];
    line.is_completed = true;
    send_note(call, place, is_matched ? FULL : PART, line.symbols, line.length);
}
static bool digit(const Script& script, Call& call, Place place, Place symbol) {
    Line& line = call.lines[place];
    if (!line.is_off) return false;
    Place which = script.lists[line.list].map;
    if (which == NONE || line.is_completed) return true;
    const Map& map = script.maps[which];
    // sixteen positions are the most, so a symbol behind them is taken by none
    uint16_t left = line.length < COMMANDS ? line.alternatives & map.takes[line.length][symbol] : 0;
    if (!left) { complete(call, place, line.alternatives & map.ends[line.length]); return true; }
    line.alternatives = left;
    line.symbols |= uint64_t(symbol) << 4 * line.length++;
    line.playing = 0;
    if (!(left & (left - 1)) && left & map.ends[line.length]) complete(call, place, true);
    return true;
}
static bool pause(const Script& script, Call& call, Place place) {
    Line& line = call.lines[place];
    Place which = script.lists[line.list].map;
    if (which == NONE || line.is_completed) return false;
    complete(call, place, line.alternatives & script.maps[which].ends[line.length]);
    return true;
}
static bool end_signal(Call& call, Place place, unsigned signal) {
    Place& playing = call.lines[place].playing;
    if (!(playing >> signal & 1)) return false;
    playing &= Place(~(1u << signal));
    return true;
}

// A request while it runs: what it empties and destroys may be given again once it has ended, and the lines whose notes still stand wait in their order.
struct Running { uint32_t emptied = 0, destroyed = 0; Place waiting = 0, lines[NAMES]; };

static bool has_context(const Call& call, Place context) { return context < ROOM && call.members[context]; }
static bool has(const Call& call, Place termination) { return termination < ROOM && call.exist >> termination & 1; }
static bool is_legal_remote(const Call& call, const Command& command, const Order& order) { return command.remote == NO_NAME || has(call, order.remote); }
// the code that a command is refused with, the first in the order of the codes; 0 where it is legal
static uint16_t refusal(const Call& call, const Command& command, const Order& order) {
    Place context = order.context, stands = order.termination < ROOM ? call.rows[order.termination].context : IN_NULL;
    bool is_there = has(call, order.termination);
    switch (command.operation) {
    case Operation::MODIFY:
        if (context != IN_NULL && !has_context(call, context)) return 411;
        if (!is_there || !is_legal_remote(call, command, order)) return 430;
        return stands == context ? 0 : 435;
    case Operation::ADD:
        if (context != CHOOSE && !has_context(call, context)) return 411;
        if ((!is_there && !command.creates_ephemeral) || !is_legal_remote(call, command, order)) return 430;
        return stands == IN_NULL ? 0 : 433;
    case Operation::MOVE:
        if (!has_context(call, context)) return 411;
        if (!is_there || !is_legal_remote(call, command, order)) return 430;
        return stands != IN_NULL && stands != context ? 0 : 435;
    case Operation::SUBTRACT:
        if (!has_context(call, context)) return 411;
        return !is_there ? 430 : stands == context ? 0 : 435;
    case Operation::TOPOLOGY:
        if (!has_context(call, context)) return 411;
        if (!is_there || !has(call, order.second)) return 430;
        return stands == context && call.rows[order.second].context == context && order.second != order.termination ? 0 : 435;
    default: return has_context(call, context) ? 0 : 411;
    }
}
static void forget_cuts(Call& call, uint32_t terminations) {
    if (!call.has_cuts) return;
    for (Place termination = 0; termination < ROOM; termination++) call.cuts[termination] &= terminations >> termination & 1 ? 0 : ~terminations;
}
static void leave(Call& call, Running& running, Place context, uint32_t terminations) {
    forget_cuts(call, terminations);
    if (context >= ROOM) return;
    call.members[context] &= ~terminations;
    if (!call.members[context]) running.emptied |= 1u << context;
}
static void join(Call& call, Place context, Place termination) {
    call.rows[termination].context = context;
    call.members[context] |= 1u << termination;
}
// a number that wasn't in use when the request began, and wasn't given since
static Place give(uint32_t& used) {
    Place place = Place(__builtin_ctz(~used));
    accept(place < ROOM, "more contexts or ephemerals than a checked script has");
    used |= 1u << place;
    return place;
}
static void forget_note(Running& running, Place line) {
    Place* end = std::remove(running.lines, running.lines + running.waiting, line);
    running.waiting = Place(end - running.lines);
}
static void free_terminations(Call& call, Running& running, uint32_t terminations) {
    for (uint32_t left = terminations; left; left &= left - 1) {
        Place termination = Place(__builtin_ctz(left));
        call.rows[termination] = {IN_NULL, 0, NONE};
        if (termination >= NAMES) continue;
        clear_line(call.lines[termination]);
        forget_note(running, termination);
    }
    call.exist &= ~(terminations >> NAMES << NAMES);
    running.destroyed |= terminations >> NAMES << NAMES;
}
static void set_topology(Call& call, const Command& command, const Order& order) {
    auto set = [&](Place from, Place to, bool is_cut) { call.cuts[from] = (call.cuts[from] & ~(1u << to)) | uint32_t(is_cut) << to; };
    set(order.termination, order.second, command.topology == 0);
    set(order.second, order.termination, command.topology != 2);
    call.has_cuts = true;
}
// Signals first, then Events, which replace a note that waits
static void describe(const Script& script, Call& call, Running& running, const Command& command, uint32_t number) {
    Line& line = call.lines[command.termination];
    if (command.signals != NONE) line.playing = command.signals;
    if (command.events == NONE) return;
    const List& list = script.lists[command.events];
    line.list = command.events;
    line.request = number;
    line.symbols = 0;
    line.length = 0;
    line.is_completed = false;
    line.alternatives = list.map == NONE ? 0 : script.maps[list.map].all;
    if (running.waiting) forget_note(running, command.termination);
    if (!(list.standing >> line.is_off & 1)) return;
    line.playing = 0;
    running.lines[running.waiting++] = command.termination;
}
static Done carry_out(const Script& script, Call& call, Running& running, const Command& command, const Order& order, uint32_t number) {
    Done done{0, NONE, NONE};
    Place context = order.context, termination = order.termination;
    if (command.operation == Operation::SUBTRACT || command.operation == Operation::SUBTRACT_ALL) {
        done.freed = command.operation == Operation::SUBTRACT ? 1u << termination : call.members[context];
        leave(call, running, context, done.freed);
        free_terminations(call, running, done.freed);
        return done;
    }
    if (command.operation == Operation::TOPOLOGY) { set_topology(call, command, order); return done; }
    if (command.operation == Operation::ADD) {
        if (context == CHOOSE) context = done.context = give(call.used_contexts);
        if (command.creates_ephemeral) {
            termination = done.ephemeral = give(call.used);
            call.exist |= 1u << termination;
        }
        join(call, context, termination);
    } else if (command.operation == Operation::MOVE) {
        leave(call, running, call.rows[termination].context, 1u << termination);
        join(call, context, termination);
    }
    Row& row = call.rows[termination];
    if (command.mode != NONE) row.mode = command.mode;
    if (command.sets_remote) row.remote = order.remote;
    if (command.termination < NAMES) describe(script, call, running, command, number);
    return done;
}
// a name that an earlier command of the request created means what that one told
static Place made(const Reply& reply, Place name, Place Done::*which) { return name >= MADE ? reply.results[name & ~MADE].*which : name; }
static void resolve(const Reply& reply, Order& order) {
    order.context = made(reply, order.context, &Done::context);
    for (Place Order::*name : {&Order::termination, &Order::second, &Order::remote}) order.*name = made(reply, order.*name, &Done::ephemeral);
}
static void run_request(const Script& script, Call& call, unsigned refused) {
    const State& state = script.states[call.request.state];
    Reply& reply = call.reply;
    Running running;
    reply.number = call.request.number;
    reply.code = 0;
    for (reply.count = 0; reply.count < call.request.count; reply.count++) {
        Order order = call.request.orders[reply.count];
        if (call.request.creates) resolve(reply, order);
        const Command& command = state.commands[order.command];
        reply.code = refusal(call, command, order);
        if (!reply.code && refused == reply.count) reply.code = 500;
        if (reply.code) break;
        reply.results[reply.count] = carry_out(script, call, running, command, order, reply.number);
    }
    call.used_contexts &= ~running.emptied;
    call.used &= ~running.destroyed;
    for (Place place = 0; place < running.waiting; place++) send_note(call, running.lines[place], call.lines[running.lines[place]].is_off ? OFF : ON);
    call.has_reply = true;
    call.executed = reply.number;
}
static bool execute(const Script& script, Call& call, const Step& step, Event& event) {
    event.number = step.number ? step.number : call.next - 1;
    if (event.number < call.first || event.number >= call.next) return false;
    // any other is discarded, or its reply, which is kept, is sent once more
    if (event.number == call.request.number && call.request.association == call.known && event.number > call.executed) run_request(script, call, step.detail);
    return true;
}

// ---- the agent

static void enter(const Script& script, Call& call, Place target) {
    const State& state = script.states[target];
    call.state = target;
    call.phase = Phase::AWAITS_PASS;
    if (!state.count) return;
    Request& request = call.request;
    Place contexts[NAMES + 1], names[2 * NAMES + 1] = {0, 1, 2, 3}, count = 0;
    std::memcpy(contexts, call.contexts, sizeof call.contexts);
    std::memcpy(names + NAMES, call.ephemerals, sizeof call.ephemerals);
    contexts[NULL_NAME] = names[NO_NAME] = IN_NULL;
    bool creates = false;
    Order orders[COMMANDS];
    for (Place place = 0; place < state.count; place++) {
        const Command& command = state.commands[place];
        Order& order = orders[count];
        order = {place, command.creates ? CHOOSE : contexts[command.context], names[command.uses], names[command.second], names[command.remote]};
        // a command that uses a name which is neither bound nor created is left out
        if (order.context == NONE || order.termination == NONE || order.second == NONE || order.remote == NONE) continue;
        if (command.creates) contexts[command.context] = MADE | count;
        if (command.creates_ephemeral) names[command.termination] = MADE | count;
        creates |= command.creates || command.creates_ephemeral;
        count++;
    }
    // an empty request isn't sent, and the one before stays the latest
    if (!count) return;
    call.phase = Phase::AWAITS_REPLY;
    request.number = call.next++;
    request.association = call.association;
    request.state = target;
    request.count = count;
    request.creates = creates;
    std::memcpy(request.orders, orders, count * sizeof(Order));
}
static void enter_or_rest(const Script& script, Call& call, Place target) {
    if (target == NONE) call.phase = Phase::RESTS;
    else enter(script, call, target);
}
// what a command's result binds and unbinds
static void bind(Call& call, const Command& command, const Done& done, uint32_t number) {
    if (command.creates) call.contexts[command.context] = done.context;
    if (command.operation == Operation::SUBTRACT_ALL) {
        call.contexts[command.context] = NONE;
        for (Place name = 0; name < NAMES; name++) {
            if (call.ephemerals[name] != NONE && done.freed >> call.ephemerals[name] & 1) call.ephemerals[name] = NONE;
            if (done.freed >> name & 1) call.expected[name] = NO_NUMBER;
        }
    } else if (command.operation == Operation::TOPOLOGY) {
        return;
    } else if (command.termination < NAMES) {
        if (command.operation == Operation::SUBTRACT) call.expected[command.termination] = NO_NUMBER;
        else if (command.events != NONE) call.expected[command.termination] = number;
    } else if (command.creates_ephemeral) call.ephemerals[command.termination - NAMES] = done.ephemeral;
    else if (command.operation == Operation::SUBTRACT) call.ephemerals[command.termination - NAMES] = NONE;
}
static bool take_reply(const Script& script, Call& call, const Step& step, Event& event) {
    const Reply& reply = call.reply;
    if (call.phase != Phase::AWAITS_REPLY || !call.has_reply || reply.number != call.request.number) return false;
    if (step.number && step.number != reply.number) return false;
    const State& state = script.states[call.state];
    if (reply.code && state.fault == NONE) return false;
    for (Place place = 0; place < reply.count; place++) bind(call, state.commands[call.request.orders[place].command], reply.results[place], reply.number);
    event.number = reply.number;
    enter_or_rest(script, call, reply.code ? state.fault : state.ok);
    return true;
}
static bool is_waiting(const Call& call, const Note& note) { return note.association == call.association && !note.is_accepted; }
static bool take_note(const Script& script, Call& call, const Step& step, Event& event) {
    const State& state = script.states[call.state];
    if (call.phase != Phase::RESTS || state.is_end) return false;
    uint32_t place = step.number - 1;
    if (!step.number) {
        while (call.settled < call.sent && (call.notes[call.settled].is_accepted || call.notes[call.settled].association < call.association)) call.settled++;
        place = call.settled;
    }
    if (place >= call.sent || !is_waiting(call, call.notes[place])) return false;
    Note& note = call.notes[place];
    note.is_accepted = true;
    event.number = place + 1;
    if (call.expected[note.line] == note.request && state.on[note.line][note.kind] != NONE) enter(script, call, state.on[note.line][note.kind]);
    return true;
}
static bool pass(const Script& script, Call& call) {
    if (call.phase != Phase::AWAITS_PASS) return false;
    enter_or_rest(script, call, script.states[call.state].ok);
    return true;
}
static bool time_out(const Script& script, Call& call) {
    Place target = script.states[call.state].timer;
    if (call.phase != Phase::RESTS || target == NONE) return false;
    enter(script, call, target);
    return true;
}
static bool hear(const Script& script, Call& call, Event& event) {
    if (call.association >= call.known) return false;
    event.number = call.association = call.known;
    clear_names(call);
    for (uint32_t& expected : call.expected) expected = NO_NUMBER;
    enter(script, call, script.restart);
    return true;
}

// ---- a step

static bool begin(const Script& script, Call& call, Event& event) {
    if (!script.states[call.state].is_end || call.phase != Phase::RESTS || call.association != call.known || call.exist >> NAMES) return false;
    for (size_t place = 0; place < script.lines.size(); place++) {
        const Row& row = call.rows[place];
        if (row.context != IN_NULL || row.mode || call.lines[place].playing || !script.lists[call.lines[place].list].is_armed) return false;
    }
    call.retired[call.begun++] = {call.events, call.idle, call.state};
    call.events = call.idle = 0;
    call.notes += call.sent;
    event.number = call.number;
    event.call = call.number = PLAN_CALLS * call.begun + call.number % PLAN_CALLS;
    begin_agent(script, call);
    return true;
}
static bool occurs(const Script& script, Call& call, const Step& step, Event& event) {
    switch (step.verb) {
    case Verb::EXECUTE: return execute(script, call, step, event);
    case Verb::REPLY: return take_reply(script, call, step, event);
    case Verb::NOTE: return take_note(script, call, step, event);
    case Verb::OFF: return hook(script, call, step.line, true);
    case Verb::ON: return hook(script, call, step.line, false);
    case Verb::PASS: return pass(script, call);
    case Verb::TIMER: return time_out(script, call);
    case Verb::DIGIT: return digit(script, call, step.line, Place(step.detail));
    case Verb::PAUSE: return pause(script, call, step.line);
    case Verb::FLASH: return flash(script, call, step.line);
    case Verb::END: return end_signal(call, step.line, step.detail);
    case Verb::BEGIN: return begin(script, call, event);
    case Verb::HEAR: return hear(script, call, event);
    default: return false;
    }
}
static bool happens(const Shard& shard, Call& call, Event& event) {
    const Step& step = *call.step;
    event = {call.number, 0, step.line == NONE ? 0 : call.lines[step.line].number, step.detail, step.verb, 0};
    bool does = occurs(*shard.script, call, step, event);
    ++(does ? call.events : call.idle);
    return does;
}
static void take(Shard& shard, Call& call) {
    if (call.known != shard.association) {
        meet_restart(shard, call);
        call.met[call.restarted++] = {call.step, shard.association};
    }
    Event event;
    if (!happens(shard, call, event)) return;
    call.transcript[call.went_through++] = event;
    shard.history[shard.happened++] = event;
}

// ---- a call alone once more

// A gateway on which calls run one after the other, each with nothing but its lines. It keeps no history: each event is compared as it happens.
struct Alone { Shard gateway; Call call; std::unique_ptr<Note[]> notes; std::unique_ptr<Retired[]> retired; };
// a step of a call alone, and whether it comes to what the same step came to in the run, whose transcript both calls have
static bool take_again(const Shard& gateway, Call& call, const Call& run) {
    if (call.known != gateway.association) meet_restart(gateway, call);
    Event event;
    if (!happens(gateway, call, event)) return true;
    return call.went_through < run.went_through && are_same(call.transcript[call.went_through++], event);
}
// what a line of the report tells of a call that is retired, or of one that stands
template <class Told> static bool are_told_same(const Told& one, const Told& other) {
    return one.events == other.events && one.idle == other.idle && one.state == other.state;
}
// whether two calls came to the same: as many events, and the same lines of the report
static bool came_to_same(const Call& one, const Call& other) {
    return one.went_through == other.went_through && are_told_same(one, other) && one.phase == other.phase && one.association == other.association
        && std::equal(one.retired, one.retired + one.begun, other.retired, other.retired + other.begun, are_told_same<Retired>);
}
