// Projects: the .sm file, its dates, and what is in use of resources in time.
#pragma once
#include "text.h"
#include <algorithm>
#include <functional>
#include <queue>
#include <utility>

const Number MOST_ACTIVITIES = 502, MOST_KINDS = 16, MOST_AMOUNT = 10000;

// Activities and resources are numbered from 0.
struct Project {
    Number count, kinds;
    vector<Number> durations;
    vector<vector<Number>> successors;
    vector<Number> needs;  // of each activity so many amounts as there are kinds
    vector<Number> available;
    vector<Number> order;  // each activity behind its predecessors

    const Number *needs_of(Number j) const { return &needs[size_t(j) * kinds]; }
};

inline bool is_title(string_view line) {
    return begins_with(line, "PROJECT INFORMATION") ||
           begins_with(line, "PRECEDENCE RELATIONS") ||
           begins_with(line, "REQUESTS/DURATIONS") || begins_with(line, "RESOURCEAVAILABILITIES");
}

// The lines that count: those that aren't empty, nor of stars and hyphens alone.
inline vector<string_view> kept_lines(string_view text) {
    vector<string_view> kept;
    for (string_view line : lines_of(text))
        if (line.find_first_not_of("*-") != string_view::npos) kept.push_back(line);
    return kept;
}

// The number behind the colon of the first line of the head that begins with the key.
inline Number value_of(const vector<string_view> &lines, string_view key, Number least,
                       Number most) {
    for (string_view line : lines) {
        if (is_title(line)) break;
        if (!begins_with(line, key)) continue;
        size_t colon = line.find(':');
        if (colon == string_view::npos) break;
        string_view behind = line.substr(colon + 1);
        return Words(behind).number(least, most);
    }
    fail("a line of the head is missing");
}

// The words of a section, without the line of its column heads.
inline Words section(const vector<string_view> &lines, string_view title) {
    auto first = std::find_if(lines.begin(), lines.end(),
                              [&](string_view line) { return begins_with(line, title); });
    if (first == lines.end()) fail("a section is missing");
    auto behind = std::find_if(first + 1, lines.end(), is_title);
    if (++first != behind) ++first;
    return Words(&*lines.begin() + (first - lines.begin()),
                 &*lines.begin() + (behind - lines.begin()));
}

inline void read_successors(Words words, Project &project) {
    vector<Number> named_by(project.count + 1);
    project.successors.resize(project.count);
    for (Number j = 1; j <= project.count; j++) {
        words.expect(j);
        words.expect(1);
        Number size = words.number(0, project.count);
        vector<Number> &row = project.successors[j - 1];
        row.reserve(size);
        for (Number k = 0; k < size; k++) {
            Number successor = words.number(1, project.count);
            if (named_by[successor] == j) fail("a successor is named twice");
            named_by[successor] = j;
            row.push_back(successor - 1);
        }
    }
    words.expect_end();
}

inline void read_requests(Words words, Project &project) {
    Number total = 0;
    for (Number j = 1; j <= project.count; j++) {
        words.expect(j);
        words.expect(1);
        Number duration = words.number(0, LONGEST_DURATION);
        total += duration;
        project.durations.push_back(duration);
        for (Number k = 0; k < project.kinds; k++)
            project.needs.push_back(words.number(0, MOST_AMOUNT));
    }
    words.expect_end();
    if (total > LONGEST_TOTAL) fail("the durations are too long");
}

inline void read_available(Words words, Project &project) {
    for (Number k = 0; k < project.kinds; k++)
        project.available.push_back(words.number(0, MOST_AMOUNT));
    words.expect_end();
}

// A topological order.
inline vector<Number> order_of(const Project &project) {
    vector<Number> waiting(project.count), order;
    for (const auto &row : project.successors)
        for (Number successor : row) waiting[successor]++;
    for (Number j = 0; j < project.count; j++)
        if (waiting[j] == 0) order.push_back(j);
    for (size_t place = 0; place < order.size(); place++)
        for (Number successor : project.successors[order[place]])
            if (--waiting[successor] == 0) order.push_back(successor);
    if (order.size() < project.count) fail("there is a cycle");
    return order;
}

inline Project read_project(const char *path) {
    std::string text = read_text(path);
    vector<string_view> lines = kept_lines(text);
    Project project;
    value_of(lines, "projects", 1, 1);
    project.count = value_of(lines, "jobs", 2, MOST_ACTIVITIES);
    project.kinds = value_of(lines, "- renewable", 1, MOST_KINDS);
    value_of(lines, "- nonrenewable", 0, 0);
    value_of(lines, "- doubly constrained", 0, 0);
    read_successors(section(lines, "PRECEDENCE RELATIONS"), project);
    read_requests(section(lines, "REQUESTS/DURATIONS"), project);
    read_available(section(lines, "RESOURCEAVAILABILITIES"), project);
    project.order = order_of(project);
    return project;
}

// The critical path method: earliest starts, the greatest lengths of paths that begin with an
// activity, and the duration of the whole.
struct Dates {
    vector<Number> starts, tails;
    Number duration = 0;

    explicit Dates(const Project &p) : starts(p.count), tails(p.count) {
        for (Number j : p.order) {
            Number end = starts[j] + p.durations[j];
            duration = std::max(duration, end);
            for (Number successor : p.successors[j])
                starts[successor] = std::max(starts[successor], end);
        }
        for (auto j = p.order.rbegin(); j != p.order.rend(); ++j) {
            Number behind = 0;
            for (Number successor : p.successors[*j]) behind = std::max(behind, tails[successor]);
            tails[*j] = behind + p.durations[*j];
        }
    }
    Number late_start(Number j) const { return duration - tails[j]; }
    Number total_float(Number j) const { return late_start(j) - starts[j]; }
};

// What is in use of each resource, from each instant on at which something starts or ends.
class Profile {
    const Project *project;
    vector<Number> times;    // rising, from 0 on
    vector<Number> amounts;  // of each of them a row

    size_t row_at(Number t) const {
        return std::upper_bound(times.begin(), times.end(), t) - times.begin() - 1;
    }
    // Whether the needs fit beside a row.
    bool fits(size_t row, const Number *needs) const {
        const Number *used = &amounts[row * project->kinds];
        for (Number k = 0; k < project->kinds; k++)
            if (used[k] + needs[k] > project->available[k]) return false;
        return true;
    }
    // The row that begins at an instant, cut in where there is none.
    size_t cut(Number t) {
        size_t row = row_at(t), kinds = project->kinds;
        if (times[row] == t) return row;
        times.insert(times.begin() + row + 1, t);
        amounts.insert(amounts.begin() + (row + 1) * kinds, kinds, 0);
        std::copy_n(amounts.begin() + row * kinds, kinds, amounts.begin() + (row + 1) * kinds);
        return row + 1;
    }

public:
    explicit Profile(const Project &p) : project(&p), times(1), amounts(p.kinds) {}

    // The least start from an instant on at which an activity fits, which fits where nothing else
    // is in use.
    Number earliest(Number from, Number j) const {
        Number duration = project->durations[j];
        if (duration == 0) return from;
        const Number *needs = project->needs_of(j);
        Number start = from;
        for (size_t row = row_at(from); row < times.size(); row++) {
            if (times[row] >= start + duration) break;
            if (!fits(row, needs)) start = times[row + 1];
        }
        return start;
    }

    void place(Number start, Number j) {
        if (project->durations[j] == 0) return;
        size_t first = cut(start), behind = cut(start + project->durations[j]);
        const Number *needs = project->needs_of(j);
        for (size_t row = first; row < behind; row++)
            for (Number k = 0; k < project->kinds; k++)
                amounts[row * project->kinds + k] += needs[k];
    }
};

// No activity needs more than there is.
inline void expect_enough(const Project &p) {
    for (Number j = 0; j < p.count; j++)
        for (Number k = 0; k < p.kinds; k++)
            if (p.durations[j] > 0 && p.needs_of(j)[k] > p.available[k]) fail("a need is too much");
}

// A schedule that places activity after activity, each as early as it can be.
class Serial {
    const Project &p;
    Profile profile;
    vector<Number> releases;

public:
    vector<Number> starts;
    Number makespan = 0;

    explicit Serial(const Project &project)
        : p(project), profile(project), releases(project.count), starts(project.count) {}

    void place(Number j) {
        starts[j] = profile.earliest(releases[j], j);
        profile.place(starts[j], j);
        Number end = starts[j] + p.durations[j];
        makespan = std::max(makespan, end);
        for (Number successor : p.successors[j])
            releases[successor] = std::max(releases[successor], end);
    }
};

// The schedule by keys: of the activities whose predecessors are placed the one of least key is
// next, of equal ones that of least number.
inline Serial schedule_by(const Project &p, const vector<Number> &keys) {
    typedef std::pair<Number, Number> Entry;
    std::priority_queue<Entry, vector<Entry>, std::greater<Entry>> eligible;
    vector<Number> waiting(p.count);
    for (const auto &row : p.successors)
        for (Number successor : row) waiting[successor]++;
    for (Number j = 0; j < p.count; j++)
        if (waiting[j] == 0) eligible.push({keys[j], j});
    Serial serial(p);
    while (!eligible.empty()) {
        Number j = eligible.top().second;
        eligible.pop();
        serial.place(j);
        for (Number successor : p.successors[j])
            if (--waiting[successor] == 0) eligible.push({keys[successor], successor});
    }
    return serial;
}

inline void show_schedule(Table &table, const Project &p, const vector<Number> &starts,
                          Number makespan) {
    table.word(4, "act").word(8, "d").word(8, "start").word(8, "end").end_line();
    for (Number j = 0; j < p.count; j++) {
        table.number(4, j + 1).number(8, p.durations[j]).number(8, starts[j]);
        table.number(8, starts[j] + p.durations[j]).end_line();
    }
    table.word(0, "makespan ").number(0, makespan).end_line();
}
