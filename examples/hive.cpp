// hive.cpp: the regulator's brake in C++: a class that owns a hive and its room, and lets the heating run only while blocks are quiet. The
// samples are made in sounds.h. Prints a line for each block, and exits 1 where the hive could not be opened.
//
//     c++ -std=c++11 -I include examples/hive.cpp crates/ladlespindle/out/libladlespindle.a -o hive && ./hive
#include "ladlespindle_hive.h"
#include "sounds.h"
#include <array>
#include <cstdio>

// A brake with blocks of N samples. It is not copied, since a hive has a room of its own.
template <std::size_t N> class Brake {
public:
    Brake(float rate, float lo_hz, float hi_hz, float threshold)
        : opened_(ladlespindle_hive_open(&hive_, N, rate, lo_hz, hi_hz, threshold, room_.data(), room_.size()))
    {
    }
    Brake(const Brake &) = delete;
    Brake &operator=(const Brake &) = delete;

    // How opening ended.
    ladlespindle_opened opened() const { return opened_; }

    // What a block is heard as; refused unless it has N samples.
    ladlespindle_heard hear(const int16_t *samples, std::size_t count) { return ladlespindle_hive_hear16(&hive_, samples, count); }

private:
    std::array<float, LADLESPINDLE_HIVE_ROOM(N)> room_;
    ladlespindle_hive hive_ = LADLESPINDLE_HIVE_INIT;
    ladlespindle_opened opened_;
};

static constexpr std::size_t length = 960;
static constexpr float hertz = 16000, tone = length / 2 / 32;
static Brake<length> brake(hertz, 200, 300, tone * tone);

static const sound sounds[] = {
    {"first block after a power cut, bees fan", 700, 250, 0.0625, 0, 0, 0, 0},
    {"silence", length, 0, 0, 0, 0, 0, 0},
    {"hum of 50, 100 and 150 Hz, 1/4 each, and an offset", length, 0, 0, 50, 0.25, 0.125, 0},
    {"bees fan under hum, offset and noise", length, 250, 0.0625, 50.5, 0.25, 0.125, 0.03125},
};

int main()
{
    static std::array<int16_t, length> block;
    std::printf("start: %s\n", ladlespindle_hive_sentence(brake.opened()));
    for (const sound &s : sounds) {
        record(&s, hertz, block.data());
        const ladlespindle_heard heard = brake.hear(block.data(), s.count);
        std::printf("heating %-3s %s: %s\n", ladlespindle_may_heat(heard) ? "on" : "off", s.name, ladlespindle_heard_sentence(heard));
    }
    return brake.opened().outcome != LADLESPINDLE_HIVE_OPEN;
}
