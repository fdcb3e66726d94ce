// Checks documents over a schema that is held, and prints each fault with its line, column, rule and hint: faults SCHEMA DOCUMENT...
#include "graphql_checked.hpp"

#include <fstream>
#include <iostream>
#include <sstream>

static std::string read_file(const char *path) {
    std::ifstream file(path, std::ios::binary);
    if (!file) throw std::runtime_error(std::string(path) + " cannot be read");
    std::ostringstream text;
    text << file.rdbuf();
    return text.str();
}

int main(int argc, char **argv) try {
    if (argc < 3) return 2;
    graphql_checked::Schema schema(read_file(argv[1]), argv[1]);
    for (int i = 2; i < argc; i++) {
        auto faults = schema.check(read_file(argv[i]), argv[i]);
        if (faults.empty()) std::cout << argv[i] << ": accepted\n";
        for (const auto &fault : faults) {
            std::cout << fault.path << ':' << fault.line << ':' << fault.column << ": " << fault.rule << ": " << fault.message;
            if (!fault.hint.empty()) std::cout << " (" << fault.hint << ')';
            std::cout << '\n';
        }
    }
} catch (const std::exception &error) {
    std::cerr << error.what() << '\n';
    return 1;
}
