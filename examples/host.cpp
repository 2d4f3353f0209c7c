// A host in C++17: a list written as a listing, its report, and an empty vector lent. examples/build-host cpp builds and runs it.
#include "replay.h"
#include "replay_text.h"

#include <array>
#include <cstdio>
#include <string>
#include <vector>

namespace {

using Settings = std::array<uint32_t, 8>;
using Outcome = std::array<uint32_t, 5>;

// What a call answered, in the clerk's words.
void say(const char *what, uint32_t answer)
{
    std::printf("%s: %u, %s\n", what, static_cast<unsigned>(answer), replay_refusal_text(answer));
}

// The listing of a list, empty where it is refused.
std::string listing_of(const Settings &settings, const std::vector<uint32_t> &list)
{
    std::vector<uint8_t> text(REPLAY_TEXT);
    Outcome outcome;
    say("writing", replay_write(settings.data(), list.data(), list.size(), text.data(), text.size(), outcome.data()));
    return std::string(text.begin(), text.begin() + outcome[REPLAY_OUTCOME_LENGTH]);
}

// What the program prints for a listing.
std::string report_of(const std::string &text)
{
    std::vector<uint8_t> room(REPLAY_REPORT);
    size_t length = 0;
    say("report", replay_report(reinterpret_cast<const uint8_t *>(text.data()), text.size(), room.data(), room.size(), &length));
    return std::string(room.begin(), room.begin() + static_cast<std::ptrdiff_t>(length));
}

} // namespace

int main()
{
    if (replay_version() != REPLAY_VERSION) {
        std::printf("the library is %u, the header %u\n", static_cast<unsigned>(replay_version()), static_cast<unsigned>(REPLAY_VERSION));
        return 1;
    }

    Settings settings{};
    settings[REPLAY_SETTING_EDITION] = 2;
    settings[REPLAY_SETTING_SRCB] = 1;

    // Edition 2's constant for register 12, in column 0 alone.
    const std::string text = listing_of(settings, {REPLAY_OP_CONFIG, 1, 0, 0, 12, 9});
    std::printf("%s", text.c_str());
    std::printf("%s", report_of(text).c_str());

    // The same without its last byte: 10, and the line as place.
    std::printf("%s", report_of(text.substr(0, text.size() - 1)).c_str());

    // An empty vector may be lent as it is, though its data() may be null: an empty list is done at once, an image of no words is not one.
    std::vector<uint32_t> image(REPLAY_IMAGE);
    std::vector<uint32_t> none;
    std::vector<uint16_t> dst(REPLAY_DST);
    std::array<uint32_t, REPLAY_OUTCOME> outcome;
    say("no list", replay_run(settings.data(), image.data(), image.size(), dst.data(), dst.size(), none.data(), none.size(), outcome.data()));
    say("no image", replay_run(settings.data(), none.data(), none.size(), dst.data(), dst.size(), none.data(), none.size(), outcome.data()));

    // LaneConfig of lane 0 out of form: refused, and image and Dst are as they were.
    image[REPLAY_AT_LANE_CONFIG] = 1u << 18;
    say("bad image", replay_run(settings.data(), image.data(), image.size(), dst.data(), dst.size(), none.data(), none.size(), outcome.data()));
}
