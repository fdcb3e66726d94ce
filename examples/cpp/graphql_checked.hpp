// The checker for C++17: a schema that closes itself, and faults with their data. Part of the example faults.cpp.
#ifndef GRAPHQL_CHECKED_HPP
#define GRAPHQL_CHECKED_HPP

#include <graphql_checked.h>

#include <mutex>
#include <stdexcept>
#include <string>
#include <string_view>
#include <vector>

namespace graphql_checked {

struct Fault {
    std::string path;
    size_t line = 0, column = 0;  // from 1; 0 where there is no place
    std::string rule, message, hint;
};

// Texts that are refused, where a schema is asked for.
struct Refused : std::runtime_error {
    std::vector<Fault> faults;
    explicit Refused(std::vector<Fault> all) : runtime_error("the schema is refused"), faults(std::move(all)) {}
};

// What an escape stands for: `at` is its letter, and then its last byte. Only quotes, backslashes and characters below U+0020 are
// escaped.
inline char unescaped(std::string_view line, size_t &at) {
    constexpr std::string_view letters = "bfnrt", meant = "\b\f\n\r\t";
    if (line[at] == 'u') return at += 4, static_cast<char>(std::stoi(std::string(line.substr(at - 1, 2)), nullptr, 16));
    size_t found = letters.find(line[at]);
    return found == letters.npos ? line[at] : meant[found];
}

// A member of a line's object, a number or a string; empty for null. Within strings each quote has a backslash, so `"name":` is a
// member's name, and the first is that of the fault.
inline std::string member(std::string_view line, std::string_view name) {
    std::string told, wanted = "\"" + std::string(name) + "\":";
    size_t at = line.find(wanted) + wanted.size();
    if (line[at] != '"') {
        for (; line[at] >= '0' && line[at] <= '9'; at++) told += line[at];
        return told;
    }
    for (at++; line[at] != '"'; at++) told += line[at] == '\\' ? unescaped(line, ++at) : line[at];
    return told;
}

inline std::vector<Fault> faults_of(std::string_view lines) {
    std::vector<Fault> all;
    for (size_t at = 0, end; at < lines.size(); at = end + 1) {
        std::string_view line = lines.substr(at, (end = lines.find('\n', at)) - at);
        std::string number = member(line, "line"), column = member(line, "column");
        all.push_back({member(line, "path"), number.empty() ? 0 : std::stoul(number), column.empty() ? 0 : std::stoul(column),
                       member(line, "rule"), member(line, "message"), member(line, "hint")});
    }
    return all;
}

// A schema that is held. Calls from several threads wait for each other: take one for each thread.
class Schema {
    graphql_checked_schema handle{};
    std::mutex mutex;

    // The faults of a call, which are read while no other call is made.
    static std::vector<Fault> told(graphql_checked_status status, const graphql_checked_answer &answer) {
        if (status == GRAPHQL_CHECKED_ACCEPTED) return {};
        if (status == GRAPHQL_CHECKED_REFUSED) return faults_of({answer.bytes, answer.length});
        throw std::runtime_error(graphql_checked_status_text(status));
    }

public:
    explicit Schema(std::string_view text, const char *path = nullptr, const graphql_checked_options *options = nullptr) {
        graphql_checked_text one{text.data(), text.size(), path};
        graphql_checked_answer answer;
        try {
            auto faults = told(graphql_checked_open(&handle, &one, 1, options, &answer), answer);
            if (!faults.empty()) throw Refused(std::move(faults));
        } catch (...) {
            graphql_checked_close(&handle);
            throw;
        }
    }
    Schema(const Schema &) = delete;
    Schema &operator=(const Schema &) = delete;
    ~Schema() { graphql_checked_close(&handle); }

    std::vector<Fault> check(std::string_view text, const char *path = nullptr) {
        graphql_checked_text document{text.data(), text.size(), path};
        graphql_checked_answer answer;
        std::lock_guard<std::mutex> lock(mutex);
        graphql_checked_status status = graphql_checked_check(&handle, &document, &answer);
        return told(status, answer);
    }
};

}  // namespace graphql_checked

#endif
