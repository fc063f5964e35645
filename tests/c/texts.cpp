/*
 * Calls of c/magbelu.hpp that a file goes into: with `check FILE`, `run FILE` or `script FILE LINES` it writes what the
 * call gives, and ends with its status.
 */
#include <fstream>
#include <iostream>
#include <sstream>

#include "magbelu.hpp"

static std::string read_file(const std::string &path) {
    std::ifstream file(path, std::ios::binary);
    if (!file) {
        throw std::runtime_error(path);
    }
    std::ostringstream text;
    text << file.rdbuf();
    return text.str();
}

static int call(const std::string &what, const std::string &file, const char *lines) {
    try {
        if (what == "run") {
            const auto report = magbelu::run(file);
            std::cout << report.text;
            return report.is_done ? 0 : 3;
        }
        std::cout << (what == "check" ? magbelu::check(file) : magbelu::script(file, read_file(lines)));
        return 0;
    } catch (const magbelu::error &error) {
        const std::string text = error.what();
        std::cout << error.output();
        std::cerr << "flow: refused " << text.substr(0, text.find('\n')) << '\n';
        return 1;
    }
}

int main(int count, char **words) {
    // (a fault of its own ends it in no status of a call)
    return count < 3 ? 99 : call(words[1], read_file(words[2]), words[count - 1]);
}
