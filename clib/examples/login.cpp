// Logs a user in, as login.c does: reads the client's two messages, a line each, and writes the server's two.
//
// Usage: login MECHANISM SALT NONCE [ACT_AS ..]
// Built by: c++ -I clib/out clib/examples/login.cpp clib/out/libscramotp.a -o login
#include "scramotp.h"

#include <array>
#include <cstdio>
#include <iostream>
#include <string>
#include <vector>

// 32 random bytes of the server, which are the same in each login.
static const std::array<std::uint8_t, 32> decoy_key = {1, 2, 3};

static int refused(std::uint32_t number)
{
    std::cerr << "refused: " << number << '\n';
    return 1;
}

static std::string bytes_of(const std::string &hex)
{
    std::string bytes;
    for (std::size_t i = 0; i + 1 < hex.size(); i += 2)
        bytes += static_cast<char>(std::stoi(hex.substr(i, 2), nullptr, 16));
    return bytes;
}

// The entry of the only account, or a decoy. A server keeps entries instead of passwords.
static std::uint32_t fill(std::uint32_t mechanism, const std::string &salt, const std::string &name, scramotp_entry &entry)
{
    const std::string password = "pencil";
    if (name == "user")
        return scramotp_keys(mechanism, 4096, salt.data(), salt.size(), password.data(), password.size(), &entry);
    return scramotp_decoy(decoy_key.data(), mechanism, 4096, name.data(), name.size(), &entry);
}

int main(int count, char **given)
{
    const std::vector<std::string> words(given, given + count);
    if (words.size() < 4)
        return 2;
    std::vector<scramotp_bytes> act_as;
    for (std::size_t i = 4; i < words.size(); i++)
        act_as.push_back({words[i].data(), words[i].size()});

    std::string first, final;
    std::getline(std::cin, first);
    scramotp_names names;
    scramotp_entry entry;
    std::uint32_t number = scramotp_read_names(first.data(), first.size(), &names);
    if (number == SCRAMOTP_OK)
        number = fill(words[1] == "SCRAM-SHA-1" ? SCRAMOTP_SHA_1 : SCRAMOTP_SHA_256, bytes_of(words[2]), names.name, entry);
    std::string challenge(SCRAMOTP_FIRST_ROOM, '\0'), verdict(SCRAMOTP_FINAL_ROOM, '\0');
    std::size_t len = 0;
    if (number == SCRAMOTP_OK)
        number = scramotp_server_first(&entry, first.data(), first.size(), words[3].data(), words[3].size(), &challenge[0],
            challenge.size(), &len);
    if (number != SCRAMOTP_OK)
        return refused(number);
    challenge.resize(len);
    std::cout << challenge << std::endl;

    std::getline(std::cin, final);
    number = scramotp_server_final(&entry, act_as.data(), act_as.size(), first.data(), first.size(), challenge.data(), challenge.size(),
        final.data(), final.size(), &verdict[0], verdict.size(), &len);
    if (number == SCRAMOTP_OK || SCRAMOTP_IS_REFUSAL(number))
        std::cout << verdict.substr(0, len) << '\n';
    if (number != SCRAMOTP_OK)
        return refused(number);
    std::cerr << names.name << " is logged in as " << (names.act_as[0] ? names.act_as : names.name) << '\n';
    return 0;
}
