// h5swmr for C++11: handles that close themselves, and refusals as exceptions. h5swmr.h says what each call does.
#ifndef H5SWMR_HPP
#define H5SWMR_HPP

#include "h5swmr.h"

#include <memory>
#include <stdexcept>
#include <string>
#include <vector>

namespace h5swmr {

// A refusal, with all that the call told, and the line that the program would print of a file that it cannot read, or of rows that it cannot write;
// else it is empty.
class error : public std::runtime_error {
    // (ROWS and RANGE have one of an append, and none of a read)
    static bool has_line(const std::string &call, h5w_told told)
    {
        switch (told.code) {
        case H5W_AGAIN: case H5W_SHRUNK: case H5W_REFUSED: case H5W_STOPPED: case H5W_CHUNKS: case H5W_FULL: case H5W_OPENED:
            return true;
        case H5W_ROWS: case H5W_RANGE:
            return call == "append";
        default:
            return false;
        }
    }

public:
    const h5w_told told;
    const std::string line;

    error(const char *call, h5w_told told)
        : std::runtime_error(std::string(call) + ": " + h5swmr_text(told) + " (code " + std::to_string(told.code) + ", detail " + std::to_string(told.detail) + ", count " + std::to_string(told.count) + ")"), told(told), line(has_line(call, told) ? h5swmr_line() : "")
    {
    }
};

// The count of a call that is done.
inline std::uint64_t done(const char *call, h5w_told told)
{
    if (told.code != H5W_OK)
        throw error(call, told);
    return told.count;
}

class reader {
    struct closes { void operator()(h5swmr_reader *it) const { h5swmr_close_reader(&it); } };
    std::unique_ptr<h5swmr_reader, closes> handle;

public:
    explicit reader(const std::string &path, const std::string &name = "data", std::uint32_t attempts = 8)
    {
        h5swmr_reader *opened;
        h5w_told told = h5swmr_open(&opened, path.c_str(), name.c_str(), attempts);
        handle.reset(opened);
        if (told.code != H5W_AGAIN)
            done("open", told);
    }

    std::uint64_t refresh() { return done("refresh", h5swmr_refresh(handle.get())); }
    std::uint64_t rows() const { return h5swmr_rows(handle.get()); }

    h5w_shape shape() const
    {
        h5w_shape found;
        done("shape", h5swmr_shape(handle.get(), &found));
        return found;
    }

    // The values of these rows, one row behind another.
    std::vector<std::int64_t> read(std::uint64_t from, std::uint64_t rows)
    {
        std::vector<std::int64_t> values(done("read", h5swmr_load(handle.get(), from, rows)));
        done("read", h5swmr_values(handle.get(), 0, values.data(), values.size()));
        return values;
    }
};

// A writer that is destroyed before its `close` closes too, and tells no refusal.
class writer {
    struct closes { void operator()(h5swmr_writer *it) const { h5swmr_close_writer(&it); } };
    std::unique_ptr<h5swmr_writer, closes> handle;

    explicit writer(h5swmr_writer *opened) : handle(opened) {}

    static std::vector<const char *> texts_of(const std::vector<std::string> &names)
    {
        std::vector<const char *> texts;
        for (const auto &it : names)
            texts.push_back(it.c_str());
        return texts;
    }

public:
    static writer create(const std::string &path, const h5w_options &how, const std::string &name = "data")
    {
        h5swmr_writer *opened;
        done("create", h5swmr_create(&opened, path.c_str(), name.c_str(), &how));
        return writer(opened);
    }

    static writer append_to(const std::string &path, const std::string &name = "data", std::uint64_t limit = std::uint64_t(1) << 40, std::uint64_t budget = 65536)
    {
        h5swmr_writer *opened;
        done("append_to", h5swmr_append_to(&opened, path.c_str(), name.c_str(), limit, budget));
        return writer(opened);
    }

    // Writers of several datasets of one file. Their numbers are those of the names, from 0 on. A new file has options for each name, in their order.
    static writer create_several(const std::string &path, const std::vector<h5w_options> &how, const std::vector<std::string> &names)
    {
        h5swmr_writer *opened;
        auto texts = texts_of(names);
        done("create", h5swmr_create_several(&opened, path.c_str(), texts.data(), texts.size(), how.data(), how.size()));
        return writer(opened);
    }

    // All by the same options.
    static writer create_several(const std::string &path, const h5w_options &how, const std::vector<std::string> &names)
    {
        return create_several(path, std::vector<h5w_options>(1, how), names);
    }

    static writer append_to_several(const std::string &path, const std::vector<std::string> &names, std::uint64_t limit = std::uint64_t(1) << 40, std::uint64_t budget = 65536)
    {
        h5swmr_writer *opened;
        auto texts = texts_of(names);
        done("append_to", h5swmr_append_to_several(&opened, path.c_str(), texts.data(), texts.size(), limit, budget));
        return writer(opened);
    }

    // A file that a writer left open, which writes no more.
    static writer take_over(const std::string &path, const std::vector<std::string> &names, std::uint64_t limit = std::uint64_t(1) << 40, std::uint64_t budget = 65536)
    {
        h5swmr_writer *opened;
        auto texts = texts_of(names);
        done("take_over", h5swmr_take_over(&opened, path.c_str(), texts.data(), texts.size(), limit, budget));
        return writer(opened);
    }

    std::uint64_t append_in(std::size_t dataset, const std::vector<std::int64_t> &values) { return done("append", h5swmr_append_in(handle.get(), dataset, values.data(), values.size())); }
    std::uint64_t columns(std::size_t dataset = 0) const { return h5swmr_columns_in(handle.get(), dataset); }
    std::uint64_t rows(std::size_t dataset = 0) const { return h5swmr_appended_in(handle.get(), dataset); }
    std::uint64_t count() const { return h5swmr_count(handle.get()); }

    void keep_retired() { done("keep_retired", h5swmr_keep_retired(handle.get())); }
    std::uint64_t append(const std::int64_t *values, std::size_t n) { return done("append", h5swmr_append(handle.get(), values, n)); }
    std::uint64_t append(const std::vector<std::int64_t> &values) { return append(values.data(), values.size()); }
    std::uint64_t flush() { return done("flush", h5swmr_flush(handle.get())); }

    void close()
    {
        h5swmr_writer *it = handle.release();
        done("close", h5swmr_close_writer(&it));
    }
};

} // namespace h5swmr
#endif
