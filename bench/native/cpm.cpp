// `plan cpm` in C++, as bench/run measures it beside the program.
//
//     cpm FILE
#include "project.h"

static Number free_float(const Project &p, const Dates &dates, Number j) {
    Number least = dates.duration;
    for (Number successor : p.successors[j]) least = std::min(least, dates.starts[successor]);
    return least - (dates.starts[j] + p.durations[j]);
}

int main(int count, char **words) {
    if (count != 2) fail("cpm FILE");
    Project p = read_project(words[1]);
    Dates dates(p);
    Table table;
    table.word(4, "act").word(8, "d").word(8, "ES").word(8, "EF").word(8, "LS").word(8, "LF");
    table.word(8, "TF").word(8, "FF").end_line();
    for (Number j = 0; j < p.count; j++) {
        Number duration = p.durations[j], start = dates.starts[j], late = dates.late_start(j);
        table.number(4, j + 1).number(8, duration).number(8, start).number(8, start + duration);
        table.number(8, late).number(8, late + duration).number(8, dates.total_float(j));
        table.number(8, free_float(p, dates, j)).word(0, late == start ? " *" : "").end_line();
    }
    table.word(0, "T ").number(0, dates.duration).end_line();
    table.print();
}
