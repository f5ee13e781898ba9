// A runner of calls that is written for speed, which nobody proved, for `make bench` to compare with; `make test` asks that it gives the lines of `mgcall run`.
//     tuned_runner run [--workers N] [--verify]
// reads the input of `mgcall run` and writes the same report. It keeps what a run keeps: the history of each shard and what each call went through, which it
// compares. It takes a script as checked and passes the certificate over, and knows of faults those of the run alone. Its documents are
// read in `tuned_input.hpp`, and its calls go on in `tuned_calls.hpp`.
//
// `mgcall run` tells of each call what is proved to be so of a run of that call alone. There is no such law here: with `--verify` each call runs alone once
// more, and what it comes to is compared, so as much is known of each line.
//
// What makes it fast, and why that may be done:
// - A call is one record, in one place for its agent and its part of the gateway; each step finds it by its number, and nothing else is looked up.
// - Contexts and ephemerals are places in that record. Of a checked script no call names what another one created, so a number says no more than its call
//   and its place; a free one is found by a bit.
// - Only the latest request of a call is kept whole. An earlier one was executed, or is of an association that is over: it changes nothing any more. The same
//   holds for its reply.
// - All lists have their room before the first step: the steps of a plan say how much there can be.
// - A restart is one number; a call sees at its next step that its part of the gateway is gone.
// - A shard's lock is held for a turn of eight steps and not for each.
#include "tuned_calls.hpp"
#include <atomic>
#include <thread>
#include <unistd.h>

// ---- queues: bounded, of many producers and consumers, a turn's number in each place

struct Queue {
    struct Cell { std::atomic<size_t> turn; uint32_t call; };
    std::unique_ptr<Cell[]> cells;
    size_t mask;
    alignas(64) std::atomic<size_t> head{0};
    alignas(64) std::atomic<size_t> tail{0};
    explicit Queue(size_t room) {
        size_t size = 2;
        while (size < room) size *= 2;
        cells.reset(new Cell[size]);
        mask = size - 1;
        for (size_t place = 0; place < size; place++) cells[place].turn.store(place, std::memory_order_relaxed);
    }
    // a place at one end, once its turn has come; nothing where the queue is full, or empty
    Cell* reach(std::atomic<size_t>& end, size_t ahead, size_t& at) {
        for (at = end.load(std::memory_order_relaxed);;) {
            Cell& cell = cells[at & mask];
            intptr_t difference = intptr_t(cell.turn.load(std::memory_order_acquire)) - intptr_t(at + ahead);
            if (difference < 0) return nullptr;
            if (difference > 0) at = end.load(std::memory_order_relaxed);
            else if (end.compare_exchange_weak(at, at + 1, std::memory_order_relaxed)) return &cell;
        }
    }
    // it has room for all calls of its shard
    void put(uint32_t call) {
        size_t at;
        Cell* cell;
        while (!(cell = reach(tail, 0, at))) std::this_thread::yield();
        cell->call = call;
        cell->turn.store(at + 1, std::memory_order_release);
    }
    bool take(uint32_t& call) {
        size_t at;
        Cell* cell = reach(head, 1, at);
        if (!cell) return false;
        call = cell->call;
        cell->turn.store(at + mask + 1, std::memory_order_release);
        return true;
    }
};

// ---- a run

// Nothing, but where the linker is told what it is: a call alone leaves out its first step then, so that a trial shows that this is found.
extern "C" const char wrong_replay[] __attribute__((weak));

template <class Job> static void side_by_side(size_t workers, Job job) {
    std::vector<std::thread> threads;
    for (size_t worker = 1; worker < workers; worker++) threads.emplace_back(job, worker);
    job(0);
    for (auto& thread : threads) thread.join();
}
// the items one after the other, each on the worker that is free
template <class Job> static void each_of(size_t workers, size_t count, Job job) {
    std::atomic<size_t> next{0};
    side_by_side(std::min(workers, count), [&](size_t) { for (size_t item; (item = next++) < count;) job(item); });
}

class Run {
public:
    Run(const Script& from, const Plan& of, size_t on)
        : script(from), plan(of), workers(on), calls(new Call[of.calls.size() + 1]), shards(new Shard[of.shards]) {
        for (uint32_t asked : plan.restarts) starts.push_back(starts.back() + asked + 1);
        restarts = plan.epochs ? starts.back() - 2 : 0;
        size_t notes = 0, begins = 0, met = 0;
        for (const PlanCall& call : plan.calls) { notes += call.notes; begins += call.begins; }
        for (size_t number = 0; number < plan.calls.size(); number++) met += most_met(number);
        events.reset(new Event[2 * plan.steps.size() + restarts * plan.shards]);
        all_notes.reset(new Note[notes]);
        all_retired.reset(new Retired[begins]);
        all_met.reset(new Met[met]);
        open();
    }
    void play() {
        for (uint32_t epoch = 0; epoch < plan.epochs; epoch++) {
            play_epoch(epoch);
            if (epoch + 1 < plan.epochs) restart_all();
        }
    }
    // whether the shards keep what the calls went through, and all steps of the plan were taken
    bool agrees() const {
        std::unique_ptr<uint32_t[]> places(new uint32_t[plan.calls.size()]());
        std::atomic<bool> same{true};
        each_of(workers, plan.shards, [&](size_t number) { if (!agrees(shards[number], places.get())) same = false; });
        size_t taken = asked_restarts();
        for (size_t number = 0; number < plan.calls.size(); number++) {
            const Call& call = calls[number];
            if (places[number] != call.went_through) same = false;
            taken += call.went_through + call.idle;
            for (uint32_t retired = 0; retired < call.begun; retired++) taken += call.retired[retired].idle;
        }
        return same && taken == plan.steps.size();
    }
    // whether each call that runs alone once more comes to what it came to in the run
    bool is_verified() const {
        uint32_t notes = 0, begins = 0;
        for (const PlanCall& call : plan.calls) { notes = std::max(notes, call.notes); begins = std::max(begins, call.begins); }
        std::atomic<size_t> next{0};
        std::atomic<bool> same{true};
        side_by_side(std::min(workers, plan.calls.size()), [&](size_t) {
            Alone alone;
            alone.gateway.script = &script;
            alone.gateway.line_bits = (1u << script.lines.size()) - 1;
            alone.notes.reset(new Note[notes]);
            alone.retired.reset(new Retired[begins]);
            for (size_t number; (number = next++) < plan.calls.size();) if (!goes_alike(alone, number)) same = false;
        });
        return same;
    }
    std::string report() const {
        std::string text;
        text.reserve(64 * plan.calls.size());
        for (size_t number = 0; number < plan.calls.size(); number++) {
            const Call& call = calls[number];
            bool is_end = script.states[call.state].is_end, is_lost = call.association != shards[number % plan.shards].association;
            for (uint32_t begun = 0; begun < call.begun; begun++) {
                const Retired& retired = call.retired[begun];
                tell(text, number, begun, retired.state, "retired", retired.events, retired.idle);
            }
            const char* phase = is_lost ? "lost" : call.phase != Phase::RESTS ? "waiting" : is_end ? "ended" : "resting";
            tell(text, number, call.begun, call.state, phase, call.events, call.idle);
        }
        return text;
    }

private:
    static constexpr int TURN = 8;
    static constexpr Event RESTART{0, 0, 0, NO_DETAIL, Verb::RESTART, 0};
    const Script& script;
    const Plan& plan;
    size_t workers, restarts = 0;
    std::unique_ptr<Call[]> calls;
    std::unique_ptr<Shard[]> shards;
    std::unique_ptr<Event[]> events;
    std::unique_ptr<Note[]> all_notes;
    std::unique_ptr<Retired[]> all_retired;
    std::unique_ptr<Met[]> all_met;
    // the association that each epoch starts in, and one more
    std::vector<uint32_t> starts{1};

    // those that are steps of the plan
    size_t asked_restarts() const { return restarts + 1 - std::max(plan.epochs, 1u); }
    size_t steps_of(size_t number) const {
        return (number + 1 < plan.calls.size() ? plan.calls[number + 1].first_step : plan.steps.size()) - plan.calls[number].first_step;
    }
    const Step* end_of(size_t number, uint32_t epoch) const { return plan.steps.data() + plan.ends[plan.calls[number].first_end + epoch]; }
    size_t most_met(size_t number) const { return std::min(restarts, steps_of(number)); }
    void open() {
        Note* notes = all_notes.get();
        Retired* retired = all_retired.get();
        Met* met = all_met.get();
        for (size_t number = 0; number < plan.calls.size(); number++) {
            const PlanCall& planned = plan.calls[number];
            open_call(calls[number], uint32_t(number), planned);
            calls[number].notes = notes;
            calls[number].retired = retired;
            calls[number].met = met;
            notes += planned.notes;
            retired += planned.begins;
            met += most_met(number);
        }
        Event* history = events.get() + plan.steps.size();
        for (size_t shard = 0; shard < plan.shards; shard++) {
            shards[shard].script = &script;
            shards[shard].line_bits = (1u << script.lines.size()) - 1;
            shards[shard].history = history;
            for (size_t number = shard; number < plan.calls.size(); number += plan.shards) history += steps_of(number);
            history += restarts;
        }
    }
    void open_call(Call& call, uint32_t number, const PlanCall& planned) const {
        call.number = number;
        call.association = call.known = call.next = 1;
        call.went_through = call.events = call.idle = call.begun = call.restarted = 0;
        call.transcript = events.get() + planned.first_step;
        call.step = plan.steps.data() + planned.first_step;
        call.request.number = 0;
        for (Place line = 0; line < NAMES; line++) {
            clear_line(call.lines[line]);
            call.lines[line].number = planned.lines[line];
            call.lines[line].list = 1;
            call.lines[line].request = call.expected[line] = 0;
            call.lines[line].is_off = false;
        }
        clear_rows(call, (1u << script.lines.size()) - 1);
        begin_agent(script, call);
    }
    void restart_all() {
        for (size_t number = 0; number < plan.shards; number++) {
            Shard& shard = shards[number];
            std::lock_guard<std::mutex> held(shard.lock);
            shard.association++;
            shard.restarts.push_back(shard.happened);
            shard.history[shard.happened++] = RESTART;
        }
    }
    // a turn of a call; a restart takes the lock of each shard, so its own is let go
    bool turn(Shard& shard, Call& call, const Step* end) {
        std::unique_lock<std::mutex> held(shard.lock);
        for (int left = TURN; left && call.step < end; left--, call.step++) {
            if (call.step->verb != Verb::RESTART) { take(shard, call); continue; }
            held.unlock();
            restart_all();
            held.lock();
        }
        return call.step < end;
    }
    void play_epoch(uint32_t epoch) {
        std::vector<std::unique_ptr<Queue>> queues;
        for (size_t shard = 0; shard < plan.shards; shard++) queues.push_back(std::make_unique<Queue>(plan.calls.size() / plan.shards + 1));
        for (size_t number = 0; number < plan.calls.size(); number++)
            if (epoch < plan.calls[number].epochs && calls[number].step < end_of(number, epoch)) queues[number % plan.shards]->put(uint32_t(number));
        side_by_side(workers, [&](size_t worker) {
            for (size_t place = 0; place < plan.shards; place++) {
                size_t shard = (worker * plan.shards / workers + place) % plan.shards;
                for (uint32_t number; queues[shard]->take(number);)
                    if (turn(shards[shard], calls[number], end_of(number, epoch))) queues[shard]->put(number);
            }
        });
    }
    bool agrees(const Shard& shard, uint32_t* places) const {
        for (size_t place = 0; place < shard.happened; place++) {
            const Event& event = shard.history[place];
            if (event.verb == Verb::RESTART) continue;
            size_t number = event.call % PLAN_CALLS;
            const Call& call = calls[number];
            if (places[number] >= call.went_through || !are_same(call.transcript[places[number]++], event)) return false;
        }
        return shard.restarts.size() == restarts;
    }
    // A call alone, by its steps of the plan. Its own restarts are steps, those between epochs come by themselves, and the others, of which there are no more
    // than the plan has, where it met them in the run.
    bool goes_alike(Alone& alone, size_t number) const {
        const Call& run = calls[number];
        Call& call = alone.call;
        uint32_t& association = alone.gateway.association;
        open_call(call, uint32_t(number), plan.calls[number]);
        call.notes = alone.notes.get();
        call.retired = alone.retired.get();
        call.step += wrong_replay != nullptr;
        const Met *met = run.met, *last = met + run.restarted;
        for (uint32_t epoch = 0; epoch < plan.calls[number].epochs; epoch++) {
            association = starts[epoch];
            for (const Step* end = end_of(number, epoch); call.step < end; call.step++) {
                if (call.step->verb == Verb::RESTART) { association++; continue; }
                if (met < last && met->step == call.step) {
                    if (met->association < association) return false;
                    association = met++->association;
                }
                if (!take_again(alone.gateway, call, run)) return false;
            }
            if (association >= starts[epoch + 1]) return false;
        }
        return met == last && came_to_same(call, run);
    }
    static void add(std::string& text, size_t number) {
        char digits[20];
        text.append(digits, std::to_chars(digits, digits + sizeof digits, number).ptr);
    }
    void tell(std::string& text, size_t number, uint32_t begun, Place state, const char* phase, uint32_t happened, uint32_t idle) const {
        add(text += "call ", number);
        if (begun) add(text += '.', begun);
        ((text += ' ') += script.states[state].name) += ' ';
        add((text += phase) += " events=", happened);
        add(text += " idle=", idle);
        text += '\n';
    }
};

// ---- the program

// standard input, in memory that nobody fills before
static std::pair<char*, size_t> read_all() {
    char* bytes = nullptr;
    size_t size = 0, room = 0;
    for (ssize_t got = 1; got > 0; size += size_t(got)) {
        if (size == room) bytes = static_cast<char*>(std::realloc(bytes, room = std::max(2 * room, size_t(1) << 18)));
        got = read(0, bytes + size, room - size);
        accept(got >= 0, "standard input can't be read");
    }
    return {bytes, size};
}
// the sections, which lines that are exactly `%%` divide
static std::vector<std::pair<size_t, size_t>> sections(Text text) {
    std::vector<std::pair<size_t, size_t>> found;
    size_t start = 0;
    for (size_t at = text.find("%%"); at != Text::npos; at = text.find("%%", at + 2)) {
        size_t end = at + 2 + (text.compare(at + 2, 1, "\r") == 0);
        if ((at && text[at - 1] != '\n') || (end < text.size() && text[end] != '\n')) continue;
        found.emplace_back(start, at - start);
        start = std::min(end + 1, text.size());
    }
    found.emplace_back(start, text.size() - start);
    return found;
}

int main(int count, char** words) {
    bool verifies = count > 2 && Text(words[count - 1]) == "--verify";
    count -= verifies;
    bool are_words = (count == 2 || count == 4) && Text(words[1]) == "run" && (count == 2 || Text(words[2]) == "--workers");
    if (!are_words) stop("usage: tuned_runner run [--workers N] [--verify]", 2);
    uint32_t workers = count == 4 ? number_in(words[3]) : 1;
    auto [bytes, size] = read_all();
    auto parts = sections({bytes, size});
    if (parts.size() != 3) stop("input fault 1 Sections", 3);
    Script script = read_script(Toml(bytes + parts[0].first, parts[0].second));
    Plan plan = read_plan(script, Toml(bytes + parts[2].first, parts[2].second));
    if (workers < 1 || workers > 64) stop("run fault 1 BadWorkers", 5);
    if (plan.calls.size() > PLAN_CALLS) stop("run fault 2 TooManyCalls", 5);
    Run run(script, plan, workers);
    run.play();
    if (!run.agrees()) stop("run fault 3 Disagree", 5);
    if (verifies && !run.is_verified()) stop("run fault 3 Disagree", 5);
    std::string report = run.report();
    std::fwrite(report.data(), 1, report.size(), stdout);
    std::free(bytes);
}
