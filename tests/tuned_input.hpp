// What `tests/tuned_runner.cpp` reads: TOML, as far as scripts and plans go, and a script and a plan in flat lists. Documents are taken as those that `mgcall`
// accepts: another one is refused here, or misread.
#pragma once
#include <algorithm>
#include <charconv>
#include <cstdint>
#include <cstdio>
#include <cstdlib>
#include <cstring>
#include <string>
#include <string_view>
#include <utility>
#include <vector>

using Text = std::string_view;
using Place = uint8_t;
constexpr Place NONE = 255;
constexpr uint32_t NO_NUMBER = 0xFFFFFFFF;
// Four lines and four ephemerals may stand at once, and sixteen commands create as many more before a number may be given again.
constexpr Place NAMES = 4, COMMANDS = 16, ROOM = 24, IN_NULL = 24, CHOOSE = 25, MADE = 0x80;
constexpr uint32_t PLAN_CALLS = 10000;

[[noreturn]] static void stop(const std::string& line, int status) {
    std::printf("%s\n", line.c_str());
    std::exit(status);
}
// apart, so that what is asked at each step of a plan is a test and no more
[[noreturn]] static void refuse(const char* what) { stop(std::string("tuned_runner: not accepted: ") + what, 3); }
static inline void accept(bool holds, const char* what) {
    if (!holds) refuse(what);
}

// ---- TOML, as far as scripts and plans go: a tree of nodes in one list, whose texts stay where they were read

enum class Sort : uint8_t { TEXT, PLAIN, ARRAY, TABLE };
struct Node { Sort sort; uint32_t key, key_size, text, text_size, first, last, next; };
class Toml {
public:
    std::vector<Node> nodes;
    Toml(char* from, size_t size) : bytes(from), end(uint32_t(size)) {
        nodes.reserve(size / 8 + 64);
        add(NO_NUMBER, {}, Sort::TABLE);
        uint32_t table = 0;
        for (gaps(); at < end; gaps()) {
            if (bytes[at] != '[') { member(table); continue; }
            bool is_array = bytes[++at] == '[';
            at += is_array;
            auto [parent, key] = path(0);
            table = is_array ? add(part(parent, key, Sort::ARRAY), {}, Sort::TABLE) : part(parent, key, Sort::TABLE);
            at += is_array ? 2 : 1;
        }
    }
    Text text(const Node& node) const { return {bytes + node.text, node.text_size}; }
    const Node* find(const Node& table, Text key) const {
        for (uint32_t place = table.first; place != NO_NUMBER; place = nodes[place].next)
            if (Text(bytes + nodes[place].key, nodes[place].key_size) == key) return &nodes[place];
        return nullptr;
    }
    Text text_at(const Node& table, Text key) const { const Node* found = find(table, key); return found ? text(*found) : Text(); }
    template <class Use> void each(const Node* list, Use use) const {
        for (uint32_t place = list ? list->first : NO_NUMBER; place != NO_NUMBER; place = nodes[place].next) use(nodes[place]);
    }
    template <class Use> void each(Text key, Use use) const { each(find(nodes[0], key), use); }
    Text key(const Node& node) const { return {bytes + node.key, node.key_size}; }

private:
    char* bytes;
    uint32_t at = 0, end;

    uint32_t add(uint32_t parent, Text key, Sort sort) {
        uint32_t place = uint32_t(nodes.size());
        nodes.push_back({sort, uint32_t(key.data() ? key.data() - bytes : 0), uint32_t(key.size()), 0, 0, NO_NUMBER, NO_NUMBER, NO_NUMBER});
        if (parent == NO_NUMBER) return place;
        uint32_t last = nodes[parent].last;
        (last == NO_NUMBER ? nodes[parent].first : nodes[last].next) = place;
        return nodes[parent].last = place;
    }
    // the part of a table with a key, which is made where there is none
    uint32_t part(uint32_t table, Text key, Sort sort) {
        const Node* found = find(nodes[table], key);
        return found ? uint32_t(found - nodes.data()) : add(table, key, sort);
    }
    void blanks() { while (at < end && (bytes[at] == ' ' || bytes[at] == '\t')) at++; }
    // blanks, ends of lines and comments
    void gaps() {
        for (; at < end && (bytes[at] <= ' ' || bytes[at] == '#'); at++)
            if (bytes[at] == '#') while (at + 1 < end && bytes[at + 1] != '\n') at++;
    }
    Text quoted() {
        char quote = bytes[at++];
        uint32_t start = at;
        while (at < end && bytes[at] != quote) at++;
        accept(at < end, "a text without an end");
        return {bytes + start, at++ - start};
    }
    Text plain() {
        uint32_t start = at;
        while (at < end && !std::strchr(" \t\r\n,=.[]{}#", bytes[at])) at++;
        accept(at > start, "a word is missing");
        return {bytes + start, at - start};
    }
    Text word() { return bytes[at] == '"' || bytes[at] == '\'' ? quoted() : plain(); }
    // the table that a dotted key leads to, and its last part
    std::pair<uint32_t, Text> path(uint32_t table) {
        for (;;) {
            blanks();
            Text key = word();
            blanks();
            if (at >= end || bytes[at] != '.') return {table, key};
            at++;
            table = part(table, key, Sort::TABLE);
        }
    }
    void member(uint32_t table) {
        auto [parent, key] = path(table);
        accept(at < end && bytes[at++] == '=', "a key without a value");
        blanks();
        value(parent, key);
    }
    void value(uint32_t parent, Text key) {
        accept(at < end, "a value is missing");
        if (bytes[at] == '[' || bytes[at] == '{') return many(add(parent, key, bytes[at] == '[' ? Sort::ARRAY : Sort::TABLE));
        bool is_text = bytes[at] == '"' || bytes[at] == '\'';
        Text found = is_text ? quoted() : plain();
        Node& node = nodes[add(parent, key, is_text ? Sort::TEXT : Sort::PLAIN)];
        node.text = uint32_t(found.data() - bytes);
        node.text_size = uint32_t(found.size());
    }
    void many(uint32_t place) {
        bool is_array = bytes[at++] == '[';
        for (gaps(); at < end && bytes[at] != (is_array ? ']' : '}'); gaps()) {
            is_array ? value(place, {}) : member(place);
            gaps();
            if (at < end && bytes[at] == ',') at++;
        }
        at++;
    }
};

// ---- a script

enum Kind : Place { ON, OFF, FLASH, FULL, PART, KINDS };
enum class Operation : Place { ADD, MODIFY, MOVE, SUBTRACT, SUBTRACT_ALL, TOPOLOGY };
// Names are places in the script. A termination is a line where it is below four, else four more than an ephemeral's place. What isn't given is NONE, but for
// names, where NO_NAME stands for it, which always means something; so does the null context. `uses` is the termination, where it isn't created.
constexpr Place NO_NAME = 2 * NAMES, NULL_NAME = NAMES;
struct Command {
    Operation operation;
    bool creates, creates_ephemeral, sets_remote;
    Place context, termination, uses, second, remote, mode, events, signals, topology;
};
struct State {
    Text name;
    Place count = 0, ok = NONE, fault = NONE, timer = NONE;
    bool is_end = false;
    Place on[NAMES][KINDS];
    Command commands[COMMANDS];
};
// Which alternatives take a symbol at a position, and which have so many positions: a bit for each alternative.
struct Map { Text name; uint16_t takes[COMMANDS][12] = {}, ends[COMMANDS + 1] = {}, all = 0; };
// Which kinds a list names, and which hook states it recognises as they stand.
struct List { Text name; Place named = 0, standing = 0, map = NONE; bool is_armed = false; };
struct Signals { Text name; Place set = 0; };
struct Script {
    std::vector<Text> lines, contexts, ephemerals;
    std::vector<List> lists = {{"none"}, {"armed", 1 << OFF, 0, NONE, true}};
    std::vector<Signals> signals = {{"none"}};
    std::vector<Map> maps;
    std::vector<State> states;
    Place start, restart;
};

static Place find(const std::vector<Text>& names, Text name) { return Place(std::find(names.begin(), names.end(), name) - names.begin()); }
template <class Named> static Place named(const std::vector<Named>& all, Text name) {
    size_t place = 0;
    while (place < all.size() && all[place].name != name) place++;
    return place < all.size() ? Place(place) : NONE;
}
// the next word of a text, which is taken off it
static Text next_word(Text& text) {
    size_t size = 0;
    while (size < text.size() && text[size] != ' ') size++;
    Text word = text.substr(0, size);
    text.remove_prefix(std::min(size + 1, text.size()));
    return word;
}
static Place symbol(char letter) { return letter == 'E' || letter == 'e' ? 10 : letter == 'F' || letter == 'f' ? 11 : Place(letter - '0'); }
static const std::vector<Text> SIGNALS = {"al/ri", "cg/dt", "cg/rt", "cg/bt", "cg/ct"}, MODES = {"Inactive", "SendOnly", "ReceiveOnly", "SendReceive"};
static const std::vector<Text> TOPOLOGIES = {"isolate", "oneway", "bothway"}, KIND_NAMES = {"on", "of", "fl", "full", "part"};

static Map read_map(Text name, Text text) {
    Map map;
    map.name = name;
    if (text.front() == '(') text = text.substr(1, text.size() - 2);
    unsigned alternative = 0, position = 0;
    for (size_t at = 0; at < text.size(); at++) {
        uint16_t bit = uint16_t(1u << alternative);
        if (text[at] == '|') { map.ends[position] |= bit; alternative++; position = 0; continue; }
        map.all |= bit;
        uint16_t (&takes)[12] = map.takes[position++];
        if (text[at] == 'x' || text[at] == 'X') for (int digit = 0; digit < 10; digit++) takes[digit] |= bit;
        else if (text[at] != '[') takes[symbol(text[at])] |= bit;
        else for (at++; text[at] != ']'; at++) {
            bool is_pair = text[at + 1] == '-';
            for (Place one = symbol(text[at]), last = symbol(text[is_pair ? at + 2 : at]); one <= last; one++) takes[one] |= bit;
            at += is_pair ? 2 : 0;
        }
    }
    map.ends[position] |= uint16_t(1u << alternative);
    return map;
}
static List read_list(const Script& script, const Toml& toml, const Node& table) {
    List list{toml.text_at(table, "name")};
    size_t count = 0;
    toml.each(toml.find(table, "list"), [&](const Node& node) {
        Text item = toml.text(node);
        Kind kind = item.substr(0, 5) == "al/on" ? ON : item.substr(0, 5) == "al/of" ? OFF : item == "al/fl" ? FLASH : FULL;
        if (kind == FULL) { if (list.map == NONE) list.map = named(script.maps, item.substr(6)); }
        else list.named |= Place(1 << kind);
        if (item.size() > 6 && item.substr(6) == "state" && kind != FULL) list.standing |= Place(1 << kind);
        list.is_armed = ++count == 1 && kind == OFF && !list.standing;
    });
    return list;
}
static Place termination(const Script& script, Text name) {
    Place line = find(script.lines, name), ephemeral = find(script.ephemerals, name);
    accept(line < script.lines.size() || ephemeral < script.ephemerals.size(), "a termination");
    return line < script.lines.size() ? line : Place(NAMES + ephemeral);
}
static Command read_command(const Script& script, Text text) {
    Text verb = next_word(text), context = next_word(text), first = next_word(text);
    Command command{Operation::ADD, false, false, false, NONE, NO_NAME, NO_NAME, NO_NAME, NO_NAME, NONE, NONE, NONE, NONE};
    static const std::vector<Text> verbs = {"add", "modify", "move", "subtract", "subtract *", "topology"};
    command.operation = first == "*" ? Operation::SUBTRACT_ALL : Operation(find(verbs, verb));
    command.creates = context.front() == '$';
    command.creates_ephemeral = first.front() == '$';
    if (command.creates) context.remove_prefix(1);
    if (command.creates_ephemeral) first.remove_prefix(1);
    command.context = context == "-" ? NULL_NAME : find(script.contexts, context);
    if (first != "*") command.termination = termination(script, first);
    if (!command.creates_ephemeral) command.uses = command.termination;
    if (command.operation == Operation::TOPOLOGY) {
        command.second = termination(script, next_word(text));
        command.topology = find(TOPOLOGIES, next_word(text));
    }
    while (!text.empty()) {
        Text option = next_word(text);
        size_t sign = option.find('=');
        Text name = option.substr(0, sign), value = option.substr(sign + 1);
        if (name == "mode") command.mode = find(MODES, value);
        else if (name == "events") command.events = named(script.lists, value);
        else if (name == "signals") command.signals = script.signals.at(named(script.signals, value)).set;
        else {
            command.sets_remote = true;
            if (value != "none") command.remote = termination(script, value);
        }
    }
    return command;
}
static Place target(const Script& script, Text name) { return name.empty() ? NONE : named(script.states, name); }
static void read_state(const Script& script, const Toml& toml, const Node& table, State& state) {
    std::memset(state.on, NONE, sizeof state.on);
    toml.each(toml.find(table, "do"), [&](const Node& node) {
        accept(state.count < COMMANDS, "a state with more than sixteen commands");
        state.commands[state.count++] = read_command(script, toml.text(node));
    });
    state.is_end = toml.text_at(table, "end") == "true";
    state.ok = target(script, toml.text_at(table, "ok"));
    state.fault = target(script, toml.text_at(table, "fault"));
    state.timer = target(script, toml.text_at(table, "timer"));
    toml.each(toml.find(table, "on"), [&](const Node& line) {
        Place place = find(script.lines, toml.key(line));
        toml.each(&line, [&](const Node& node) { state.on[place][find(KIND_NAMES, toml.key(node))] = target(script, toml.text(node)); });
    });
}
static Script read_script(const Toml& toml) {
    Script script;
    auto names = [&](Text key, std::vector<Text>& all) { toml.each(key, [&](const Node& node) { all.push_back(toml.text(node)); }); };
    names("lines", script.lines);
    names("contexts", script.contexts);
    names("ephemerals", script.ephemerals);
    toml.each("maps", [&](const Node& table) { script.maps.push_back(read_map(toml.text_at(table, "name"), toml.text_at(table, "map"))); });
    toml.each("events", [&](const Node& table) { script.lists.push_back(read_list(script, toml, table)); });
    toml.each("signals", [&](const Node& table) {
        Signals signals{toml.text_at(table, "name")};
        toml.each(toml.find(table, "list"), [&](const Node& node) { signals.set |= Place(1 << find(SIGNALS, toml.text(node))); });
        script.signals.push_back(signals);
    });
    // targets may be named before their states are read
    toml.each("state", [&](const Node& table) { script.states.emplace_back().name = toml.text_at(table, "name"); });
    size_t place = 0;
    toml.each("state", [&](const Node& table) { read_state(script, toml, table, script.states[place++]); });
    script.start = target(script, toml.text_at(toml.nodes[0], "start"));
    script.restart = target(script, toml.text_at(toml.nodes[0], "restart"));
    accept(script.start != NONE && script.restart != NONE && script.lines.size() <= NAMES, "a script");
    return script;
}

// ---- a plan

enum class Verb : Place { EXECUTE, REPLY, NOTE, OFF, ON, PASS, TIMER, DIGIT, PAUSE, FLASH, END, BEGIN, HEAR, RESTART };
// no two have both their first letter and their length in common
static const Text VERBS[] = {"execute", "reply", "note", "off", "on", "pass", "timer", "digit", "pause", "flash", "end", "begin", "hear", "restart"};
constexpr uint16_t NO_DETAIL = 0xFFFF;
// The number of a message is 0 where none is given. The detail is a symbol, a signal, or the place of the command that is refused.
struct Step { uint32_t number; uint16_t detail; Verb verb; Place line; };
struct PlanCall { uint32_t lines[NAMES], first_step, first_end, epochs, notes, begins; };
// `restarts` has for each epoch its steps that are restarts.
struct Plan { std::vector<PlanCall> calls; std::vector<Step> steps; std::vector<uint32_t> ends, restarts; uint32_t shards = 1, epochs = 0; };

static uint32_t number_in(Text text) {
    uint32_t number = 0;
    auto [rest, fault] = std::from_chars(text.data(), text.data() + text.size(), number);
    accept(fault == std::errc() && rest == text.data() + text.size(), "a number");
    return number;
}
static Step read_step(const Script& script, Text text) {
    Text verb = next_word(text);
    size_t which = 0;
    while (which < std::size(VERBS) && (VERBS[which].size() != verb.size() || VERBS[which][0] != verb[0])) which++;
    accept(which < std::size(VERBS) && VERBS[which] == verb, "a step");
    Step step{0, NO_DETAIL, Verb(which), NONE};
    if (text.empty()) return step;
    if (step.verb <= Verb::NOTE) {
        Text word = next_word(text);
        if (word != "refuse") { step.number = number_in(word); word = next_word(text); }
        if (word == "refuse") step.detail = uint16_t(number_in(next_word(text)));
        return step;
    }
    step.line = find(script.lines, next_word(text));
    accept(step.line < script.lines.size(), "a step's line");
    if (step.verb == Verb::DIGIT) step.detail = symbol(text.front());
    if (step.verb == Verb::END) step.detail = find(SIGNALS, text);
    return step;
}
static Plan read_plan(const Script& script, const Toml& toml) {
    Plan plan;
    plan.steps.reserve(toml.nodes.size());
    if (const Node* shards = toml.find(toml.nodes[0], "shards")) plan.shards = number_in(toml.text(*shards));
    accept(plan.shards >= 1 && plan.shards <= 16, "so many shards");
    toml.each("call", [&](const Node& table) {
        PlanCall call{{}, uint32_t(plan.steps.size()), uint32_t(plan.ends.size()), 0, 0, 0};
        Place line = 0;
        toml.each(toml.find(table, "lines"), [&](const Node& node) { call.lines[line++ % NAMES] = number_in(toml.text(node)); });
        toml.each(toml.find(table, "epochs"), [&](const Node& epoch) {
            uint32_t restarts = 0;
            toml.each(&epoch, [&](const Node& node) {
                Step step = read_step(script, toml.text(node));
                // an event of a line raises at most one note, and a request one for each line
                call.notes += step.line != NONE ? 1 : step.verb == Verb::EXECUTE ? uint32_t(script.lines.size()) : 0;
                call.begins += step.verb == Verb::BEGIN;
                restarts += step.verb == Verb::RESTART;
                plan.steps.push_back(step);
            });
            plan.ends.push_back(uint32_t(plan.steps.size()));
            plan.restarts.resize(std::max(plan.restarts.size(), size_t(call.epochs) + 1));
            plan.restarts[call.epochs++] += restarts;
        });
        plan.epochs = std::max(plan.epochs, call.epochs);
        plan.calls.push_back(call);
    });
    return plan;
}
