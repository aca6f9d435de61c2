// `plan best` in C++, as bench/run measures it beside the program: depth first over the words that
// spell active schedules in lexicographic order, so that it visits the same words. It proves
// nothing.
//
//     best BUDGET FILE INSTANCE
#include "shop.h"

const Number MOST_SEARCHED = 100, MOST_BUDGET = 200000, FAR = 1000000000;

class Search : Building {
    // Of the steps of a machine that wait: the least head, all times, and the least tail.
    struct Waiting {
        Number head = FAR, times = 0, tail = FAR;
    };

    Number left;
    vector<Waiting> waiting;

    // Gathers what waits of each machine.
    void gather() {
        waiting.assign(shop.machines, Waiting());
        for (Number job = 0; job < shop.jobs; job++) {
            Number end = ends[job];
            for (Number x = next[job], last = last_of(job); x < last; x++) {
                const Step &s = shop.steps[x];
                if (s.time == 0) continue;
                Waiting &w = waiting[s.machine];
                Number head = std::max(end, freed[s.machine]);
                w.head = std::min(w.head, head);
                w.times += s.time;
                w.tail = std::min(w.tail, shop.tails[x]);
                end = head + s.time;
            }
        }
    }

    // Whether each job can end before an instant.
    bool jobs_end_before(Number limit) const {
        for (Number job = 0; job < shop.jobs; job++) {
            Number end = has_next(job) ? ready(job) + time_left(job) : ends[job];
            if (end >= limit) return false;
        }
        return true;
    }

    // Whether each machine can be done before an instant.
    bool machines_end_before(Number limit) {
        gather();
        for (const Waiting &w : waiting)
            if (w.times > 0 && w.head + w.times + w.tail >= limit) return false;
        return true;
    }

    void explore(size_t depth) {
        if (depth == shop.steps.size()) {
            if (makespan() >= least) return;
            least = makespan();
            best = starts;
            return;
        }
        if (!jobs_end_before(least) || !machines_end_before(least)) return;
        Conflict in = conflict();
        for (Number job = in.first; job < in.last && !is_cut; job++)
            if (competes(job, in)) visit(depth, job);
    }

    // Visits the word with one letter more, and those that begin with it.
    void visit(size_t depth, Number job) {
        if (left == 0) {
            is_cut = true;
            return;
        }
        left--;
        Number machine = step(job).machine, end = ends[job], free = freed[machine];
        place(job);
        explore(depth + 1);
        next[job]--;
        ends[job] = end;
        freed[machine] = free;
    }

public:
    vector<Number> best;
    Number least;
    bool is_cut = false;

    Search(const Shop &of, const Building &initial, Number budget)
        : Building(of), left(budget - 1), best(initial.starts), least(initial.makespan()) {
        explore(0);
    }
};

int main(int count, char **words) {
    if (count != 4) fail("best BUDGET FILE INSTANCE");
    Shop shop = read_shop(words[2], words[3]);
    if (shop.steps.size() > MOST_SEARCHED) fail("the shop is too large");
    Number budget = budget_of(words[1], MOST_BUDGET);
    Building initial(shop);
    initial.finish_by_work();
    Search search(shop, initial, budget);
    Table table;
    table.word(0, search.is_cut ? "budget " : "optimal ").number(0, search.least).end_line();
    show_shop(table, shop, search.best, search.least);
    table.print();
}
