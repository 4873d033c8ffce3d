// The same by the classes of h5swmr.hpp: unlike_raii FILE BATCHES. Prints nothing but what is wrong.
#include "h5swmr.hpp"

#include <iostream>

static std::int64_t value_of(std::uint64_t row)
{
    return static_cast<std::int64_t>(row * 2654435761u % 1000003) - 500000;
}

int main(int argc, char **argv)
{
    if (argc != 3)
        return 2;
    const std::uint64_t batches = std::stoull(argv[2]), wide = 5;
    h5w_options line = H5W_OPTIONS, frames = H5W_OPTIONS;
    line.chunk_rows = 100;
    line.budget = 1 << 20; // of both
    frames.size = 2, frames.big = 1, frames.is_signed = 0, frames.fixed = 1;
    frames.columns = wide, frames.width = 3, frames.chunk_rows = 8;
    frames.filled = 1, frames.fill = 7;
    auto writer = h5swmr::writer::create_several(argv[1], std::vector<h5w_options>{ line, frames }, { "line", "frames" });
    bool is_right = writer.columns(0) == 1 && writer.columns(1) == wide;
    for (std::uint64_t batch = 0; batch < batches; batch++) {
        std::vector<std::int64_t> values, pixels;
        for (std::uint64_t at = 0; at < 3; at++)
            values.push_back(value_of(batch * 3 + at) * (std::int64_t(1) << 40));
        for (std::uint64_t at = 0; at < 2 * wide; at++)
            pixels.push_back(static_cast<std::int64_t>((batch * 2 * wide + at) * 7919 % 65536));
        is_right &= writer.append_in(0, values) == (batch + 1) * 3 && writer.append_in(1, pixels) == (batch + 1) * 2;
        writer.flush();
    }
    writer.close();
    h5swmr::reader reader(argv[1], "frames");
    is_right &= reader.rows() == 2 * batches && reader.shape().columns == wide && reader.shape().size == 2;
    if (!is_right)
        std::cout << "an answer of the classes is wrong\n";
    return is_right ? 0 : 1;
}
