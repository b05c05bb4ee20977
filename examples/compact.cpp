// Compacts a RINEX file into memory, expands that again, and says whether the file came back, or its normal form, as a file does that isn't
// standard: compact FILE
#include <fstream>
#include <iostream>
#include <iterator>
#include <rnxcmp.h>
#include <stdexcept>
#include <string>

using Call = int (*)(const void *, size_t, const rnxcmp_options *, void *, size_t, void *, size_t, rnxcmp_answer *);

// What a filter makes of an input; a fault is an exception.
static std::string filtered(Call call, const std::string &input) {
    rnxcmp_options options = RNXCMP_OPTIONS;
    options.date = "01-Jan-24 00:00";
    std::string output(input.size(), '\0');
    rnxcmp_answer answer;
    int status = call(input.data(), input.size(), &options, &output[0], output.size(), nullptr, 0, &answer);
    if (status == RNXCMP_NO_ROOM) {
        output.resize(answer.output_length);
        status = call(input.data(), input.size(), &options, &output[0], output.size(), nullptr, 0, &answer);
    }
    if (status == RNXCMP_FAULT) {
        throw std::runtime_error("line " + std::to_string(answer.line) + ": " + rnxcmp_words(answer.code));
    } else if (status != RNXCMP_GOOD) {
        throw std::runtime_error(rnxcmp_status_words(static_cast<uint32_t>(status)));
    }
    output.resize(answer.output_length);
    return output;
}

int main(int count, char **words) {
    if (count != 2) {
        return 1;
    }
    try {
        std::ifstream stream(words[1], std::ios::binary);
        if (!stream) {
            throw std::runtime_error("it can't be read");
        }
        const std::string file{std::istreambuf_iterator<char>(stream), std::istreambuf_iterator<char>()};
        const std::string compact = filtered(rnxcmp_compact, file);
        const bool same = filtered(rnxcmp_expand, compact) == file;
        std::cout << file.size() << " bytes, compact " << compact.size() << ": " << (same ? "the same again" : "its normal form") << '\n';
        return 0;
    } catch (const std::exception &fault) {
        std::cerr << words[1] << ": " << fault.what() << '\n';
        return 1;
    }
}
