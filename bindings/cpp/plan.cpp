// Plans the scene on standard input, and writes its full report.
#include <iostream>
#include <iterator>
#include <kimorefo.h>
#include <string>

int main() {
    const std::string text{std::istreambuf_iterator<char>(std::cin), {}};
    std::string report(65536, '\0');
    std::size_t count;
    std::uint32_t status, line, kind;
    do {
        status = kimorefo_plan(text.data(), text.size(), true, report.data(), report.size(), &count, &line, &kind);
        report.resize(count);
    } while (status == KIMOREFO_NO_ROOM);
    std::cout << report;
    return static_cast<int>(status);
}
