// A building as the solver by hand reads it, and how it writes a block. Faults of a text aren't looked for: evacplan has refused it before.
#pragma once
#include <unistd.h>

#include <cstdint>
#include <cstdlib>
#include <cstring>
#include <string>
#include <unordered_map>
#include <vector>

// The numbers of a building, with nodes and arcs by their place in the file. It knows no windows and no entrants.
struct Model {
    int horizon = 0, end_line = 0;
    std::vector<std::string> name;
    std::vector<int> capacity, start;
    std::vector<char> is_exit;
    std::vector<int> tail, head, travel, rate;
    std::unordered_map<std::string, int> place;

    int nodes() const { return (int)name.size(); }
    int arcs() const { return (int)tail.size(); }
    long people() const {
        long sum = 0;
        for (int it : start) sum += it;
        return sum;
    }
};

// The fields of one line, without copies.
struct Fields {
    const char *at[8];
    int length[8];
    int count = 0;

    Fields(const char *from, const char *until) {
        auto is_blank = [](char it) { return it == ' ' || it == '\t' || it == '\r'; };
        while (from < until && count < 8) {
            while (from < until && is_blank(*from)) from++;
            const char *begin = from;
            while (from < until && !is_blank(*from)) from++;
            if (from > begin) {
                at[count] = begin;
                length[count++] = int(from - begin);
            }
        }
    }
    bool says(const char *word) const { return count > 0 && length[0] == (int)strlen(word) && !memcmp(at[0], word, length[0]); }
    std::string text(int i) const { return std::string(at[i], length[i]); }
    int number(int i) const {
        int value = 0;
        for (int j = 0; j < length[i]; j++) value = 10 * value + (at[i][j] - '0');
        return value;
    }
};

inline std::string all_of_input() {
    std::string text(1 << 16, 0);
    size_t length = 0;
    for (;;) {
        ssize_t count = read(0, &text[length], text.size() - length);
        if (count <= 0) break;
        length += (size_t)count;
        if (length == text.size()) text.resize(2 * text.size());
    }
    text.resize(length);
    return text;
}

inline void take_node(Model &m, const Fields &fields) {
    std::string name = fields.text(1);
    bool is_exit = name[0] == 'D';
    m.place[name] = m.nodes();
    m.name.push_back(name);
    m.is_exit.push_back(is_exit);
    m.capacity.push_back(is_exit ? 0 : fields.number(2));
    m.start.push_back(is_exit ? 0 : fields.number(3));
}

inline void take_arc(Model &m, const Fields &fields) {
    m.tail.push_back(m.place[fields.text(1)]);
    m.head.push_back(m.place[fields.text(2)]);
    m.travel.push_back(fields.number(3));
    m.rate.push_back(fields.number(4));
}

inline Model read_model() {
    Model m;
    std::string text = all_of_input();
    const char *from = text.data(), *until = from + text.size();
    for (int line = 1; from < until; line++) {
        const char *end = (const char *)memchr(from, '\n', until - from);
        if (!end) end = until;
        Fields fields(from, end);
        from = end + 1;
        if (fields.says("horizon")) m.horizon = fields.number(1);
        else if (fields.says("node")) take_node(m, fields);
        else if (fields.says("arc")) take_arc(m, fields);
        else if (fields.says("end")) {
            m.end_line = line;
            break;
        }
    }
    return m;
}

// Text to standard output, over a buffer. A write that fails ends the program with status 4.
class Out {
    std::vector<char> held = std::vector<char>(1 << 16);
    size_t count = 0;

public:
    void flush() {
        for (size_t done = 0; done < count;) {
            ssize_t wrote = write(1, held.data() + done, count - done);
            if (wrote <= 0) exit(4);
            done += (size_t)wrote;
        }
        count = 0;
    }
    // Sees to it that a line fits.
    void line() {
        if (count + 256 > held.size()) flush();
    }
    void put(const char *text, size_t length) {
        memcpy(&held[count], text, length);
        count += length;
    }
    void put(const char *text) { put(text, strlen(text)); }
    void put(const std::string &text) { put(text.data(), text.size()); }
    void put(unsigned number) {
        char digits[12];
        int at = 12;
        do {
            digits[--at] = char('0' + number % 10);
            number /= 10;
        } while (number);
        put(digits + at, 12 - at);
    }
};
