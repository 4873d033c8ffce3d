// The classes of h5swmr.hpp: raii FILE, which it makes. Prints nothing but what is wrong.
#include "h5swmr.hpp"

#include <iostream>

// The code of the refusal that the call ends with; 0 if it is done.
template <typename Call> std::uint32_t code_of(Call call)
{
    try {
        call();
        return 0;
    } catch (const h5swmr::error &error) {
        return error.told.code;
    }
}

int main(int argc, char **argv)
{
    if (argc != 2)
        return 2;
    h5w_options how = H5W_OPTIONS;
    auto writer = h5swmr::writer::create(argv[1], how);
    bool is_right = writer.append({ 1, -2, 3 }) == 3 && writer.flush() == 3;
    h5swmr::reader reader(argv[1]);
    is_right &= reader.rows() == 3 && reader.read(1, 2) == std::vector<std::int64_t>({ -2, 3 });
    is_right &= writer.append({ 4 }) == 4;
    is_right &= code_of([&] { reader.read(0, 4); }) == H5W_ROWS;
    writer.close(); // it flushes
    is_right &= reader.refresh() == 4 && reader.read(3, 1).at(0) == 4;
    is_right &= code_of([&] { writer.append({ 5 }); }) == H5W_MISUSE && code_of([&] { writer.close(); }) == H5W_MISUSE;
    {
        auto second = h5swmr::writer::append_to(argv[1]);
        is_right &= second.append({ 5 }) == 5 && code_of([&] { h5swmr::writer::append_to(argv[1]); }) == H5W_OPENED;
    } // its end flushes and closes
    auto third = std::move(reader);
    is_right &= third.refresh() == 5;
    is_right &= code_of([&] { h5swmr::writer::create(argv[1], how); }) == H5W_IO;
    is_right &= third.shape().rows == 5 && third.shape().columns == 1 && third.shape().size == 8;
    try {
        h5swmr::reader(argv[1], "other");
    } catch (const h5swmr::error &error) {
        is_right &= error.line == "error link none";
    }
    {
        const std::string two = std::string(argv[1]) + ".two";
        auto both = h5swmr::writer::create_several(two, how, { "frames", "times" });
        is_right &= both.append_in(0, { 1, 2 }) == 2 && both.append_in(1, { 3 }) == 1 && both.flush() == 2;
        is_right &= both.count() == 2 && both.rows() == 2 && both.rows(1) == 1 && both.rows(2) == 0;
        is_right &= code_of([&] { both.append_in(2, { 1 }); }) == H5W_MISUSE;
        is_right &= code_of([&] { h5swmr::writer::append_to_several(two, { "times", "frames" }); }) == H5W_OPENED;
        both.close();
        is_right &= h5swmr::reader(two, "times").read(0, 1).at(0) == 3;
        is_right &= code_of([&] { h5swmr::writer::take_over(two, { "times", "frames" }); }) == H5W_OPENED;
        is_right &= h5swmr::writer::append_to_several(two, { "times", "frames" }).rows(1) == 2;
    }
    if (!is_right)
        std::cout << "an answer of the classes is wrong\n";
    return is_right ? 0 : 1;
}
