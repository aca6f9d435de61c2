// The clause kernel of plan_kernel in C++: literals, facts, kept clauses, one conflict, and the
// operations that add clauses. It proves nothing.
#pragma once
#include <algorithm>
#include <cstdint>
#include <cstdio>
#include <vector>

using std::vector;
typedef uint32_t Number;

// Half 2x at v says "S_x >= v", half 2x + 1 at v says "S_x + v <= FAR".
struct Literal {
    Number half, value;
};

const Number FAR = 1u << 30, NONE = ~Number(0);

inline Literal negation(Literal l) {
    return {l.half ^ 1, l.value > FAR ? 0 : FAR + 1 - l.value};
}
inline Literal at_least(Number x, Number v) { return {2 * x, v}; }
// "S_x <= v", where v is bound - less; false in every schedule if less > bound.
inline Literal at_most(Number x, Number bound, Number less = 0) {
    return {2 * x + 1, FAR + less - bound};
}

struct Arc {
    Number from, to, weight;
};

// Two activities that can't overlap; its variable is 1 if the first ends before the second starts.
struct Pair {
    Number first, second;
};

struct Member {
    Number activity, instants;
};

enum Kind : Number { Kept, ArcRule, OrderFirst, OrderSecond, Energy };

// A clause that is true in every feasible schedule below the upper bound.
struct Reason {
    Kind kind;
    Number index = 0;  // clause, arc, pair or resource
    Number from = 0;   // the value of arcs and pairs; the window of energy
    Number to = 0;
    vector<Member> members = {};
};

// Activities, their makespan as one variable behind them, and the variables of pairs behind it.
struct Model {
    Number count = 0, kinds = 0;
    vector<Number> durations, needs, capacities;
    vector<Arc> arcs;  // with those to the makespan
    vector<Pair> pairs;

    Number end() const { return count; }
    Number pair_variable(Number p) const { return count + 1 + p; }
    Number variables() const { return count + 1 + Number(pairs.size()); }
    Number need(Number x, Number k) const { return needs[size_t(x) * kinds + k]; }
};

enum Outcome { IsClause, IsFact, IsProved, IsFull };

class Kernel {
    const Model &model;
    Number cap;
    vector<Number> facts, conflict;
    vector<Number> touched_halves;  // all with a literal in the conflict, and some without
    vector<bool> is_touched;
    Number count = 0;  // of the literals in the conflict
    vector<Number> places, sizes;
    vector<Literal> literals, scratch;

    void write_order(const Reason &r, bool first) {
        Pair p = model.pairs[r.index];
        Number x = model.pair_variable(r.index);
        if (!first) std::swap(p.first, p.second);
        scratch.push_back(first ? at_most(x, 0) : at_least(x, 1));
        scratch.push_back(at_most(p.first, r.from, 1));
        scratch.push_back(at_least(p.second, r.from + model.durations[p.first]));
    }

    void write_energy(const Reason &r) {
        for (Member m : r.members) {
            Number d = model.durations[m.activity];
            scratch.push_back(at_most(m.activity, r.from + m.instants, d + 1));
            scratch.push_back(at_least(m.activity, r.to - m.instants + 1));
        }
    }

    // The literals of a reason.
    void write(const Reason &r) {
        scratch.clear();
        if (r.kind == Kept) {
            auto first = literals.begin() + places[r.index];
            scratch.assign(first, first + sizes[r.index]);
        } else if (r.kind == ArcRule) {
            const Arc &arc = model.arcs[r.index];
            scratch.push_back(at_most(arc.from, r.from, 1));
            scratch.push_back(at_least(arc.to, r.from + arc.weight));
        } else if (r.kind == Energy) {
            write_energy(r);
        } else {
            write_order(r, r.kind == OrderFirst);
        }
    }

    void add(Literal l) {
        if (l.value <= facts[l.half] || l.value <= conflict[l.half]) return;
        if (conflict[l.half] == 0) count++;
        if (!is_touched[l.half]) touched_halves.push_back(l.half);
        is_touched[l.half] = true;
        conflict[l.half] = l.value;
    }

    void clear() {
        for (Number h : touched_halves) {
            conflict[h] = 0;
            is_touched[h] = false;
        }
        touched_halves.clear();
        count = 0;
    }

    // All activities end before the upper bound.
    void raise_latest() {
        for (Number x = 0; x <= model.count; x++) {
            Number d = x < model.count ? model.durations[x] : 0;
            facts[2 * x + 1] = std::max(facts[2 * x + 1], FAR + 1 + d - upper);
        }
    }

    // The log has quantities by their numbers from 1 on: activities, the makespan, and orders.
    void log_literal(Literal l) const {
        fprintf(log, l.half % 2 == 0 ? " %u>=%u" : " %u<=%u", l.half / 2 + 1,
                l.half % 2 == 0 ? l.value : FAR - l.value);
    }
    void log_reason(const Reason &r) const {
        const char *names[] = {"kept", "arc", "before", "after", "energy"};
        fprintf(log, " %s", names[r.kind]);
        if (r.kind == ArcRule) {
            const Arc &arc = model.arcs[r.index];
            fprintf(log, " %u %u", arc.from + 1, arc.to + 1);
        } else {
            fprintf(log, " %u", r.kind == Kept ? r.index : r.index + 1);
        }
        if (r.kind != Kept) fprintf(log, " %u", r.from);
        if (r.kind == Energy) fprintf(log, " %u", r.to);
        for (Member m : r.members) fprintf(log, " %u*%u", m.activity + 1, m.instants);
        fprintf(log, "\n");
    }
    void log_schedule() const {
        if (!log) return;
        fprintf(log, "schedule %u", upper);
        for (Number start : best) fprintf(log, " %u", start);
        fprintf(log, "\n");
    }
    void log_kept(const char *what) const {
        if (!log) return;
        fprintf(log, "%s", what);
        for (Literal l : scratch) log_literal(l);
        fprintf(log, "\n");
    }

    // The clause that the conflict refutes.
    void write_conflict() {
        scratch.clear();
        for (Number h : touched_halves)
            if (conflict[h] > 0) scratch.push_back(negation({h, conflict[h]}));
    }

public:
    Number upper;
    vector<Number> best;
    bool is_refuted = false;  // no feasible schedule is below the upper bound
    FILE *log = nullptr;

    // Begins the log: the orders, and the first schedule.
    void log_to(FILE *file) {
        log = file;
        for (const Pair &p : model.pairs) fprintf(log, "order %u %u\n", p.first + 1, p.second + 1);
        log_schedule();
    }

    Kernel(const Model &of, vector<Number> starts, Number makespan, Number most_literals)
        : model(of), cap(most_literals), facts(2 * of.variables()), conflict(2 * of.variables()),
          is_touched(2 * of.variables()), upper(makespan), best(std::move(starts)) {
        raise_latest();
        for (Number p = 0; p < of.pairs.size(); p++) facts[2 * of.pair_variable(p) + 1] = FAR - 1;
    }

    Number fact(Number h) const { return facts[h]; }
    Number needed(Number h) const { return conflict[h]; }
    const vector<Number> &touched() const { return touched_halves; }
    Number clauses() const { return Number(sizes.size()); }
    Number size(Number id) const { return sizes[id]; }
    Literal literal(Number id, Number k) const { return literals[places[id] + k]; }
    Number kept_literals() const { return Number(literals.size()); }
    void swap(Number id, Number j, Number k) {
        std::swap(literals[places[id] + j], literals[places[id] + k]);
    }
    Number lower() const { return is_refuted ? upper : std::min(facts[2 * model.end()], upper); }
    // The literals of the last reason, or of the clause that was kept last.
    const vector<Literal> &written() const { return scratch; }

    void begin(const Reason &r) {
        if (log) fprintf(log, "begin");
        if (log) log_reason(r);
        clear();
        write(r);
        for (Literal l : scratch) add(negation(l));
    }

    void resolve(Number h, const Reason &r) {
        if (log) fprintf(log, h % 2 == 0 ? "resolve %u>=" : "resolve %u<=", h / 2 + 1);
        if (log) log_reason(r);
        write(r);
        Number v = conflict[h];
        auto is_resolved = [&](Literal l) { return l.half == h && l.value >= v; };
        auto found = std::find_if(scratch.begin(), scratch.end(), is_resolved);
        if (found == scratch.end()) __builtin_trap();
        conflict[h] = 0;
        count--;
        for (auto l = scratch.begin(); l != scratch.end(); ++l)
            if (l != found) add(negation(*l));
    }

    // Keeps the clause that the conflict refutes.
    Outcome keep() {
        write_conflict();
        if (count == 0) {
            is_refuted = true;
            log_kept("refuted");
            return IsProved;
        }
        if (count == 1) {
            Literal l = scratch[0];
            facts[l.half] = std::max(facts[l.half], l.value);
            log_kept("fact");
            return IsFact;
        }
        if (literals.size() + count > cap) return IsFull;
        places.push_back(Number(literals.size()));
        sizes.push_back(count);
        literals.insert(literals.end(), scratch.begin(), scratch.end());
        if (log) fprintf(log, "keep %u", clauses() - 1);
        log_kept("");
        return IsClause;
    }

    void lower_to(const vector<Number> &starts, Number makespan) {
        best = starts;
        upper = makespan;
        raise_latest();
        log_schedule();
    }

    // Drops the clauses that aren't to stay.
    void compact(const vector<bool> &stays) {
        Number at = 0, count = 0;
        for (Number id = 0; id < sizes.size(); id++) {
            if (!stays[id]) {
                if (log) fprintf(log, "drop %u\n", id);
                continue;
            }
            if (log && count != id) fprintf(log, "move %u %u\n", id, count);
            Number size = sizes[id], from = places[id];
            std::copy_n(literals.begin() + from, size, literals.begin() + at);
            places[count] = at;
            sizes[count++] = size;
            at += size;
        }
        places.resize(count);
        sizes.resize(count);
        literals.resize(at);
    }
};
