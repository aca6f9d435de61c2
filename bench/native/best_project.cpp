// `plan best-project` in C++, as bench/run measures it beside the program: depth first over the
// activity lists in lexicographic order, so that it visits the same words. What is in use is kept
// instant by instant, the amounts of four resources in one word, and the search allocates nothing.
// It proves nothing.
//
//     best_project BUDGET FILE
#include "project.h"
#include <array>

const Number MOST_SEARCHED = 40, MOST_BUDGET = 200000, LANES = 4;
const uint64_t GUARDS = 0x8000800080008000;  // the highest bit of each lane

static uint64_t bit(Number j) { return uint64_t(1) << j; }

// The amounts of all resources, four in a word; a sum of two amounts is below 2^15.
template <size_t SIZE> struct Amounts {
    std::array<uint64_t, SIZE> words{};

    Amounts(const Number *amounts = nullptr, Number kinds = 0) {
        for (Number k = 0; k < kinds; k++)
            words[k / LANES] |= uint64_t(amounts[k]) << (16 * (k % LANES));
    }
    void add(const Amounts &other) {
        for (size_t i = 0; i < SIZE; i++) words[i] += other.words[i];
    }
    void subtract(const Amounts &other) {
        for (size_t i = 0; i < SIZE; i++) words[i] -= other.words[i];
    }
    // Whether the needs fit beside these amounts.
    bool fits(const Amounts &needs, const Amounts &available) const {
        uint64_t kept = GUARDS;
        for (size_t i = 0; i < SIZE; i++)
            kept &= (available.words[i] | GUARDS) - words[i] - needs.words[i];
        return kept == GUARDS;
    }
};

template <size_t SIZE> class Search {
    typedef Amounts<SIZE> Row;
    template <class T> using Each = std::array<T, MOST_SEARCHED>;

    const Project &p;
    Row available;
    vector<Row> used;  // at each instant
    Each<Row> needs{};
    Each<Number> durations{}, tails{};
    Each<uint64_t> predecessors{}, successors{};  // as sets
    Each<Number> releases{};  // of each eligible activity, when its predecessors have ended
    uint64_t placed = 0;
    Number left;

    // The least start from an instant on: [start, tested) fits, and then all up to the end.
    Number earliest(Number from, Number j) const {
        Number start = from, tested = from, end = from + durations[j];
        while (tested < end) {
            Number t = end;
            while (t > tested && used[t - 1].fits(needs[j], available)) t--;
            if (t == tested) break;
            start = t;
            tested = end;
            end = t + durations[j];
        }
        return start;
    }

    Number release(Number j) const {
        Number latest = 0;
        for (uint64_t set = predecessors[j]; set != 0; set &= set - 1) {
            Number i = __builtin_ctzll(set);
            latest = std::max(latest, starts[i] + durations[i]);
        }
        return latest;
    }

    // The successors of an activity that wait for no other one, now that it is placed.
    uint64_t freed_by(Number j) {
        uint64_t freed = 0;
        for (uint64_t set = successors[j]; set != 0; set &= set - 1) {
            Number successor = __builtin_ctzll(set);
            if (predecessors[successor] & ~placed) continue;
            releases[successor] = release(successor);
            freed |= bit(successor);
        }
        return freed;
    }

    // Places an activity, explores the words that begin so, and takes it back.
    void place(Number j, uint64_t eligible, Number bound, Number end) {
        Number first = starts[j], behind = first + durations[j];
        for (Number t = first; t < behind; t++) used[t].add(needs[j]);
        placed |= bit(j);
        explore((eligible & ~bit(j)) | freed_by(j), bound, end);
        placed &= ~bit(j);
        for (Number t = first; t < behind; t++) used[t].subtract(needs[j]);
    }

    // Visits the word with one letter more, and those that begin with it.
    void visit(Number j, uint64_t eligible, Number bound, Number end) {
        starts[j] = earliest(releases[j], j);
        bound = std::max(bound, starts[j] + tails[j]);
        end = std::max(end, starts[j] + durations[j]);
        if ((placed | bit(j)) == bit(p.count) - 1) {
            if (end >= makespan) return;
            makespan = end;
            best = starts;
        } else if (bound < makespan) {
            place(j, eligible, bound, end);
        }
    }

    void explore(uint64_t eligible, Number bound, Number end) {
        for (uint64_t set = eligible; set != 0 && !is_cut; set &= set - 1) {
            if (left == 0) {
                is_cut = true;
                return;
            }
            left--;
            visit(__builtin_ctzll(set), eligible, bound, end);
        }
    }

    // What no schedule is shorter than: the longest path, and what each resource is busy for.
    Number root_bound(const Dates &dates) const {
        uint64_t bound = dates.duration;
        for (Number k = 0; k < p.kinds; k++) {
            uint64_t work = 0, most = p.available[k];
            for (Number j = 0; j < p.count; j++)
                work += uint64_t(p.durations[j]) * p.needs_of(j)[k];
            if (most > 0) bound = std::max(bound, (work + most - 1) / most);
        }
        return bound;
    }

    // Copies the project into lists of fixed size. Returns the eligible activities.
    uint64_t set_up(const Dates &dates) {
        Number total = 0;
        uint64_t eligible = bit(p.count) - 1;
        for (Number j = 0; j < p.count; j++) {
            needs[j] = Row(p.needs_of(j), p.kinds);
            durations[j] = p.durations[j];
            tails[j] = dates.tails[j];
            total += p.durations[j];
            for (Number successor : p.successors[j]) {
                successors[j] |= bit(successor);
                predecessors[successor] |= bit(j);
                eligible &= ~bit(successor);
            }
        }
        used.resize(size_t(total) + LONGEST_DURATION);
        return eligible;
    }

public:
    Each<Number> starts{}, best{};
    Number makespan;
    bool is_cut = false;

    Search(const Project &project, const Dates &dates, const Serial &initial, Number budget)
        : p(project), available(p.available.data(), p.kinds), left(budget - 1),
          makespan(initial.makespan) {
        std::copy(initial.starts.begin(), initial.starts.end(), best.begin());
        uint64_t eligible = set_up(dates);
        Number bound = root_bound(dates);
        if (bound < makespan) explore(eligible, bound, 0);
    }
};

static Serial by_latest_finish(const Project &p, const Dates &dates) {
    vector<Number> keys(p.count);
    for (Number j = 0; j < p.count; j++) keys[j] = dates.late_start(j) + p.durations[j];
    return schedule_by(p, keys);
}

template <size_t SIZE> static void show_best(const Project &p, Number budget) {
    Dates dates(p);
    Search<SIZE> search(p, dates, by_latest_finish(p, dates), budget);
    Table table;
    table.word(0, search.is_cut ? "budget " : "optimal ").number(0, search.makespan).end_line();
    show_schedule(table, p, vector<Number>(search.best.begin(), search.best.begin() + p.count),
                  search.makespan);
    table.print();
}

int main(int count, char **words) {
    if (count != 3) fail("best_project BUDGET FILE");
    Project p = read_project(words[2]);
    expect_enough(p);
    if (p.count > MOST_SEARCHED) fail("the project is too large");
    Number budget = budget_of(words[1], MOST_BUDGET);
    if (p.kinds <= LANES) return show_best<1>(p, budget), 0;
    show_best<MOST_KINDS / LANES>(p, budget);
}
