// `plan schedule` in C++, as bench/run measures it beside the program.
//
//     schedule RULE FILE
#include "project.h"
#include <bitset>

// How many activities come behind each one, directly or not.
static vector<Number> total_successors(const Project &p) {
    vector<std::bitset<MOST_ACTIVITIES>> behind(p.count);
    vector<Number> totals(p.count);
    for (auto j = p.order.rbegin(); j != p.order.rend(); ++j) {
        for (Number successor : p.successors[*j]) {
            behind[*j] |= behind[successor];
            behind[*j].set(successor);
        }
        totals[*j] = behind[*j].count();
    }
    return totals;
}

static vector<Number> keys_of(const Project &p, string_view rule) {
    if (rule == "spt") return p.durations;
    vector<Number> keys(p.count);
    if (rule == "num") return keys;
    if (rule == "mts") {
        keys = total_successors(p);
        for (Number &key : keys) key = p.count - key;
        return keys;
    }
    if (rule != "lft" && rule != "slk") fail("there is no such rule");
    Dates dates(p);
    for (Number j = 0; j < p.count; j++)
        keys[j] = rule == "slk" ? dates.total_float(j) : dates.late_start(j) + p.durations[j];
    return keys;
}

int main(int count, char **words) {
    if (count != 3) fail("schedule RULE FILE");
    Project p = read_project(words[2]);
    expect_enough(p);
    Serial serial = schedule_by(p, keys_of(p, words[1]));
    Table table;
    show_schedule(table, p, serial.starts, serial.makespan);
    table.print();
}
