// Checks a witness of a circuit, as verdict.c does: verdict CIRCUIT WITNESS.
// To build it: c++ verdict.cpp $(pkg-config --cflags --libs aig) -o verdict
#include <aig.h>
#include <fstream>
#include <iostream>
#include <iterator>
#include <stdexcept>
#include <string>

static std::string contents(const char *name)
{
    std::ifstream file(name, std::ios::binary);
    std::string bytes((std::istreambuf_iterator<char>(file)), std::istreambuf_iterator<char>());
    if (!file.is_open() || file.bad())
        throw std::runtime_error(std::string(name) + " cannot be read");
    return bytes;
}

static const uint8_t *bytes_of(const std::string &text) { return reinterpret_cast<const uint8_t *>(text.data()); }

int main(int count, char **names) try {
    if (count != 3)
        return 2;
    const std::string circuit = contents(names[1]), witness = contents(names[2]);
    std::string room(256, ' ');
    size_t length = 0;
    bool confirmed = false;
    uint8_t status = aig_check(bytes_of(circuit), circuit.size(), bytes_of(witness), witness.size(),
                               reinterpret_cast<uint8_t *>(&room[0]), room.size(), &length, &confirmed);
    std::cout << room.substr(0, length) << (status == AIG_DONE ? "" : "\n");
    return status == AIG_DONE && confirmed ? 0 : 1;
} catch (const std::exception &why) {
    std::cerr << why.what() << "\n";
    return 2;
}
