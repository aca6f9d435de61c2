// Job shops: the jobshop1 file, active schedules step by step, and their table.
#pragma once
#include "text.h"
#include <algorithm>

const Number MOST_JOBS = 50, MOST_MACHINES = 20;

struct Step {
    Number machine, time;
};

// The steps of all jobs, one job behind another; jobs and machines are numbered from 0.
struct Shop {
    Number jobs, machines;
    vector<Step> steps;
    vector<Number> tails;  // of each step the times behind it in its job
};

inline bool is_plus(string_view line) { return !line.empty() && line.front() == '+'; }

// The name that an instance line gives; nothing where it is none.
inline string_view name_in(string_view line) {
    const string_view key = "instance";
    if (!begins_with(line, key) || line.size() == key.size() || !is_blank(line[key.size()]))
        return {};
    string_view name = trimmed(line.substr(key.size()));
    return std::any_of(name.begin(), name.end(), is_blank) ? string_view() : name;
}

// Whether the first line that isn't blank is exactly two numbers.
inline bool is_bare(const vector<string_view> &lines) {
    auto first = std::find_if(lines.begin(), lines.end(),
                              [](string_view line) { return !line.empty(); });
    if (first == lines.end()) return false;
    Words words(*first);
    Number jobs, machines;
    return words.take_number(jobs) && words.take_number(machines) && !words.has_next();
}

// The words of the instance of a name: behind its description, up to a plus line or its end.
inline Words instance(const vector<string_view> &lines, string_view name) {
    const string_view *first = lines.data(), *last = first + lines.size();
    if (is_bare(lines)) {
        if (name != "-") fail("there is no such instance");
        return Words(first, last);
    }
    auto is_named = [&](string_view line) { return !name.empty() && name_in(line) == name; };
    auto is_other = [](string_view line) { return !name_in(line).empty(); };
    auto is_description = [](string_view line) { return !line.empty() && !is_plus(line); };
    first = std::find_if(first, last, is_named);
    if (first == last) fail("there is no such instance");
    last = std::find_if(++first, last, is_other);
    first = std::find_if(first, last, is_description);
    if (first != last) ++first;
    return Words(first, std::find_if(first, last, is_plus));
}

inline Shop read_shop(const char *path, string_view name) {
    std::string text = read_text(path);
    vector<string_view> lines = lines_of(text);
    Words words = instance(lines, name);
    Shop shop;
    shop.jobs = words.number(1, MOST_JOBS);
    shop.machines = words.number(1, MOST_MACHINES);
    Number size = shop.jobs * shop.machines, total = 0;
    for (Number x = 0; x < size; x++) {
        Number machine = words.number(0, shop.machines - 1);
        Number time = words.number(0, LONGEST_DURATION);
        shop.steps.push_back({machine, time});
        total += time;
    }
    if (total > LONGEST_TOTAL) fail("the times are too long");
    shop.tails.resize(size);
    for (Number x = size - 1; x > 0; x--)
        if (x % shop.machines != 0) shop.tails[x - 1] = shop.tails[x] + shop.steps[x].time;
    return shop;
}

// An active schedule that is built step by step, as Giffler and Thompson do.
class Building {
protected:
    const Shop &shop;
    vector<Number> next;   // of each job the number of its next step
    vector<Number> ends;   // of each job
    vector<Number> freed;  // of each machine, when it is free

    // What competes: the jobs whose next step is on the machine and ready before the instant; or
    // one job by itself, whose step takes no time.
    struct Conflict {
        Number first, last, machine, before;
    };

    Number last_of(Number job) const { return (job + 1) * shop.machines; }
    bool has_next(Number job) const { return next[job] < last_of(job); }
    const Step &step(Number job) const { return shop.steps[next[job]]; }
    Number ready(Number job) const {
        const Step &s = step(job);
        return s.time == 0 ? ends[job] : std::max(ends[job], freed[s.machine]);
    }
    Number time_left(Number job) const { return step(job).time + shop.tails[next[job]]; }

    Conflict conflict() const {
        Conflict found = {0, shop.jobs, 0, ~Number(0)};
        for (Number job = 0; job < shop.jobs; job++) {
            if (!has_next(job)) continue;
            const Step &s = step(job);
            if (s.time == 0) return {job, job + 1, s.machine, ~Number(0)};
            Number end = ready(job) + s.time;
            if (end < found.before) {
                found.machine = s.machine;
                found.before = end;
            }
        }
        return found;
    }

    bool competes(Number job, const Conflict &in) const {
        return has_next(job) && step(job).machine == in.machine && ready(job) < in.before;
    }

    void place(Number job) {
        Number start = ready(job);
        const Step &s = step(job);
        starts[next[job]] = start;
        ends[job] = start + s.time;
        if (s.time > 0) freed[s.machine] = ends[job];
        next[job]++;
    }

public:
    vector<Number> starts;

    explicit Building(const Shop &of)
        : shop(of), next(of.jobs), ends(of.jobs), freed(of.machines), starts(of.steps.size()) {
        for (Number job = 0; job < of.jobs; job++) next[job] = job * of.machines;
    }
    Number makespan() const { return *std::max_element(ends.begin(), ends.end()); }

    // Places all steps: of the jobs that compete the one with the most work remaining is next.
    void finish_by_work() {
        for (size_t turn = 0; turn < shop.steps.size(); turn++) {
            Conflict in = conflict();
            Number chosen = shop.jobs;
            for (Number job = in.first; job < in.last; job++)
                if (competes(job, in) &&
                    (chosen == shop.jobs || time_left(job) > time_left(chosen)))
                    chosen = job;
            place(chosen);
        }
    }
};

inline void show_shop(Table &table, const Shop &shop, const vector<Number> &starts,
                      Number makespan) {
    table.word(4, "job").word(8, "step").word(8, "mach").word(8, "d").word(8, "start");
    table.word(8, "end").end_line();
    for (Number x = 0; x < shop.steps.size(); x++) {
        const Step &s = shop.steps[x];
        table.number(4, x / shop.machines + 1).number(8, x % shop.machines + 1);
        table.number(8, s.machine).number(8, s.time).number(8, starts[x]);
        table.number(8, starts[x] + s.time).end_line();
    }
    table.word(0, "makespan ").number(0, makespan).end_line();
}
