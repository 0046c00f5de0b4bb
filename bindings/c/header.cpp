// The header in C++: its layout is asserted there, and the calls link.
#include "drom.h"

#include <cstdio>

int main() {
    const unsigned char dump[] = {0, 0, 0, 0, 0, 0, 0, 0, 0, 0, 0, 0, 0, 3, 6, 0, 3, 8, 6};
    static unsigned char records[DROM_ROOM];
    drom_report report = {};
    const unsigned char number =
        drom_read(nullptr, 0, dump, sizeof dump, records, sizeof records, &report, sizeof report);
    const bool right = number == DROM_ACCEPTED && report.records == 1 && report.bytes == 6;
    std::printf("header.cpp: %s\n", right ? "right" : "wrong");
    return right ? 0 : 1;
}
