// What the programs of this folder share that bench/run measures: texts, their words, and tables.
#pragma once
#include <charconv>
#include <cstdint>
#include <cstdio>
#include <cstdlib>
#include <cstring>
#include <string>
#include <string_view>
#include <vector>

using std::string_view;
using std::vector;
typedef uint32_t Number;

const size_t LONGEST_TEXT = 1048576;
const Number LONGEST_DURATION = 10000, LONGEST_TOTAL = 1000000;

[[noreturn]] inline void fail(const char *why) {
    fprintf(stderr, "%s\n", why);
    exit(1);
}

// The bytes of a file, which has to be a text.
inline std::string read_text(const char *path) {
    FILE *file = fopen(path, "rb");
    if (!file || fseek(file, 0, SEEK_END) != 0) fail("the file can't be read");
    long size = ftell(file);
    if (size < 0 || size_t(size) > LONGEST_TEXT) fail("the text is too long");
    rewind(file);
    std::string text(size, '\0');
    if (fread(text.data(), 1, text.size(), file) != text.size()) fail("the file can't be read");
    fclose(file);
    if (text.find('\0') != std::string::npos) fail("the file is no text");
    return text;
}

inline bool is_blank(char c) { return c == ' ' || (c >= '\t' && c <= '\r') || c == 26; }

inline bool is_digit(char c) { return c >= '0' && c <= '9'; }

inline bool begins_with(string_view text, string_view start) {
    return text.substr(0, start.size()) == start;
}

inline string_view trimmed(string_view line) {
    while (!line.empty() && is_blank(line.front())) line.remove_prefix(1);
    while (!line.empty() && is_blank(line.back())) line.remove_suffix(1);
    return line;
}

// The lines of a text, without the blanks at their ends.
inline vector<string_view> lines_of(string_view text) {
    vector<string_view> lines;
    while (!text.empty()) {
        size_t size = std::min(text.find('\n'), text.size());
        lines.push_back(trimmed(text.substr(0, size)));
        text.remove_prefix(std::min(size + 1, text.size()));
    }
    return lines;
}

// The words of some lines, one after another.
class Words {
    const string_view *line, *last;
    const char *at = nullptr, *end = nullptr;

    void open(string_view text) {
        at = text.data();
        end = at + text.size();
    }

public:
    Words(const string_view *first, const string_view *behind) : line(first), last(behind) {}
    explicit Words(const string_view &text) : Words(&text, &text + 1) {}

    // Whether a word is left; goes to it.
    bool has_next() {
        for (;;) {
            while (at != end && is_blank(*at)) at++;
            if (at != end) return true;
            if (line == last) return false;
            open(*line++);
        }
    }

    // Takes the next word where it is a number: one to nine digits.
    bool take_number(Number &value) {
        if (!has_next()) return false;
        const char *here = at, *behind = end;
        Number sum = 0;
        while (here != behind && is_digit(*here)) sum = sum * 10 + (*here++ - '0');
        size_t size = here - at;
        at = here;
        value = sum;
        return size > 0 && size <= 9 && (here == behind || is_blank(*here));
    }

    // The next word, which has to be a number of at least `least` and at most `most`.
    Number number(Number least, Number most) {
        Number value;
        if (!take_number(value)) fail("a number is missing");
        if (value < least || value > most) fail("a number is out of its limits");
        return value;
    }

    // The next word, which has to be this number.
    void expect(Number value) { number(value, value); }

    void expect_end() {
        if (has_next()) fail("there are too many words");
    }
};

// The number that a word of the command line spells, from 1 on and without zeros in front.
inline Number budget_of(const char *word, Number most) {
    Number value = 0;
    const char *end = word + strlen(word);
    auto [rest, error] = std::from_chars(word, end, value);
    if (error != std::errc() || rest != end || *word == '0' || value > most) fail("no budget");
    return value;
}

// A table of numbers, right in their columns.
class Table {
    std::string text;

public:
    Table &word(size_t places, string_view word) {
        if (word.size() < places) text.append(places - word.size(), ' ');
        text.append(word);
        return *this;
    }
    Table &number(size_t places, Number value) {
        char digits[10];
        char *end = std::to_chars(digits, digits + sizeof digits, value).ptr;
        return word(places, string_view(digits, end - digits));
    }
    void end_line() { text += '\n'; }

    void print() const {
        bool is_written = fwrite(text.data(), 1, text.size(), stdout) == text.size();
        if (!is_written || fflush(stdout) != 0) fail("the output can't be written");
    }
};
