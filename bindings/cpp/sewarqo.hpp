// Compiler diagnostics, drawn over their sources. C++17, over sewarqo.h, sewarqo_excerpt.h and libsewarqo.
//
//     sewarqo::Report report(sewarqo::Kind::error(), "can't compare apples with oranges");
//     report.label({0, 0, 5, "This is an apple"}).label({0, 9, 15, "This is an orange"});
//     std::string picture = report.render({{"apple == orange;", "main.fruit"}});
//
// Texts are UTF-8. Offsets count from 0, in characters or (Config::byte_offsets) in bytes, and the end
// of a label is exclusive. The only escapes in a picture are the library's, for a terminal that reads
// UTF-8: symbols replace the characters listed in SAFE.md (Config::safe). A report keeps copies of its
// texts; texts of sources are read only during a call. Any number of threads may call at once.
#ifndef SEWARQO_HPP
#define SEWARQO_HPP

#include "sewarqo_excerpt.h"
#include <cstddef>
#include <cstdint>
#include <cstdlib>
#include <new>
#include <optional>
#include <ostream>
#include <stdexcept>
#include <string>
#include <string_view>
#include <utility>
#include <vector>

namespace sewarqo {

// The version of the library that is linked or loaded, as SEWARQO_VERSION is that of the header.
inline std::string_view version() { return sewarqo_version(); }

// A colour, or none: one with a name, as Color(SEWARQO_RED), or one of the palette, or of red, green and
// blue.
class Color {
public:
    constexpr Color() = default;
    constexpr explicit Color(std::uint32_t number) : number_(number) {}
    static constexpr Color fixed(std::uint8_t number) { return Color(256u + number); }
    static constexpr Color rgb(std::uint8_t red, std::uint8_t green, std::uint8_t blue) {
        return Color(1u << 24 | std::uint32_t{red} << 16 | std::uint32_t{green} << 8 | blue);
    }
    constexpr std::uint32_t number() const { return number_; }

private:
    std::uint32_t number_ = SEWARQO_NO_COLOR;
};

// What a report is: one of three, or of a name and a colour of its own.
class Kind {
public:
    static Kind error() { return Kind(SEWARQO_ERROR, {}, Color()); }
    static Kind warning() { return Kind(SEWARQO_WARNING, {}, Color()); }
    static Kind advice() { return Kind(SEWARQO_ADVICE, {}, Color()); }
    static Kind custom(std::string_view name, Color color) {
        return Kind(SEWARQO_CUSTOM, std::string(name), color);
    }

private:
    friend class Report;
    Kind(std::uint32_t number, std::string name, Color color)
        : number_(number), name_(std::move(name)), color_(color) {}
    std::uint32_t number_;
    std::string name_;
    Color color_;
};

// A piece of a source, which is named by its number, and what is said of it. Without a message it is
// only marked. Labels of lower order are drawn first; where they overlap, the one of higher priority is
// seen.
struct Label {
    // (Names of their own, since some programs are built with -Wshadow.)
    Label(std::size_t in_source, std::size_t from, std::size_t to,
          std::optional<std::string_view> text = std::nullopt, Color in_color = Color(),
          std::int32_t of_order = 0, std::int32_t of_priority = 0)
        : source(in_source), start(from), end(to), message(text), color(in_color), order(of_order),
          priority(of_priority) {}
    std::size_t source;
    std::size_t start;
    std::size_t end;
    std::optional<std::string> message;
    Color color;
    std::int32_t order;
    std::int32_t priority;
};

// A source, or an excerpt: all its lines from the first to the last that a label or the report's `at` is on,
// and with context_lines so many more on both sides. An excerpt has the number of lines above it as its
// line_offset.
struct Source {
    std::string_view text;
    std::optional<std::string_view> name = std::nullopt;
    std::size_t line_offset = 0;
};

// An edit of a source: what stands in place of a piece of it. The ends are equal where something is put in.
struct Edit {
    Edit(std::size_t from, std::size_t to, std::string_view put_in) : start(from), end(to), text(put_in) {}
    std::size_t start;
    std::size_t end;
    std::string text;
};

enum class Attach : std::uint32_t {
    middle = SEWARQO_ATTACH_MIDDLE,
    start = SEWARQO_ATTACH_START,
    end = SEWARQO_ATTACH_END
};

// How a report is drawn.
struct Config {
    bool color = true;
    bool ascii = false;
    bool compact = false;
    bool byte_offsets = false;
    bool underlines = true;
    bool multiline_arrows = true;
    bool cross_gap = true;
    Attach attach = Attach::middle;
    std::size_t tab_width = 4; // in columns; 0 is the usual 4
    bool safe = true; // without it texts are drawn as they are, with the escapes that they hold
    bool lone_underlines = false; // underlines also where no label of a line has a message
    std::size_t context_lines = 0; // lines that are shown above and below each line with a label
    std::size_t width = 0; // in columns: of the text of a line, which is cut where it is longer. 0 is any
    bool excerpts = false; // of sources only the lines that the picture needs are handed over, and checked
};

namespace detail {

// A field of `Config`, its flag, and the value that sets the flag.
struct Flag {
    bool Config::*field;
    std::uint32_t bit;
    bool is_set_by;
};

inline constexpr Flag flags[] = {
    {&Config::color, SEWARQO_PLAIN, false},
    {&Config::ascii, SEWARQO_ASCII, true},
    {&Config::compact, SEWARQO_COMPACT, true},
    {&Config::byte_offsets, SEWARQO_BYTE_OFFSETS, true},
    {&Config::underlines, SEWARQO_NO_UNDERLINES, false},
    {&Config::multiline_arrows, SEWARQO_NO_MULTILINE_ARROWS, false},
    {&Config::cross_gap, SEWARQO_NO_CROSS_GAP, false},
    {&Config::safe, SEWARQO_RAW, false},
    {&Config::lone_underlines, SEWARQO_LONE_UNDERLINES, true},
};

} // namespace detail

// A picture, and the labels that are left out of it. A stream gets its text.
struct Picture {
    std::string text;
    std::vector<sewarqo_left_out> left_out;
};

inline std::ostream &operator<<(std::ostream &out, const Picture &picture) { return out << picture.text; }

// Why there is no picture, or no text of a help: a status of sewarqo.h, and the number of the label, the text, the
// source or the edit at fault. A stream gets it in words.
struct ErrorInfo {
    std::uint32_t status;
    std::size_t number;
    // In words: "label 2: it ends before it starts".
    std::string text() const {
        const std::string part = sewarqo_status_part(status);
        return (part.empty() ? part : part + ' ' + std::to_string(number) + ": ") + sewarqo_status_text(status);
    }
};

inline std::ostream &operator<<(std::ostream &out, const ErrorInfo &why) { return out << why.text(); }

// The offset of a column of a line, both from 1, in characters or in bytes, which columns count too. Lines end
// at line feeds alone. A column past its line is the line's end, in front of its LF or CR LF. Where the text has
// no such line it is SIZE_MAX, and a label there is left out. The text is read from its beginning.
inline std::size_t offset(std::string_view text, std::size_t line, std::size_t column,
                          bool byte_offsets = false) {
    const void *bytes = text.data();
    return sewarqo_offset({static_cast<const std::uint8_t *>(bytes), text.size()}, line, column,
                          byte_offsets ? SEWARQO_BYTE_OFFSETS : 0);
}

// The exception of an error other than want of memory. Its `what` has the error in words, behind "sewarqo: ".
class Error : public std::runtime_error {
public:
    explicit Error(ErrorInfo why) : std::runtime_error("sewarqo: " + why.text()), info_(why) {}
    ErrorInfo info() const noexcept { return info_; }

private:
    ErrorInfo info_;
};

// A picture, or why there is none.
class Result {
public:
    Result(Picture picture) : picture_(std::move(picture)) {}
    Result(ErrorInfo why) : info_(why) {}
    bool has_value() const noexcept { return picture_.has_value(); }
    explicit operator bool() const noexcept { return has_value(); }
    // The error, where there is no picture.
    ErrorInfo error() const noexcept { return info_; }
    // The picture. Without one it throws an Error, or std::bad_alloc where there was no memory. Where the
    // program is built without exceptions, it aborts.
    Picture &value() & { return check(); }
    Picture &&value() && { return std::move(check()); }

private:
    Picture &check() {
        if (!picture_)
            fail();
        return *picture_;
    }
    [[noreturn]] void fail() const {
#ifdef __cpp_exceptions
        if (info_.status == SEWARQO_ERR_NO_MEMORY)
            throw std::bad_alloc();
        throw Error(info_);
#else
        std::abort();
#endif
    }
    std::optional<Picture> picture_;
    ErrorInfo info_ = {SEWARQO_DRAWN, 0};
};

// What is said of which pieces of sources.
class Report {
public:
    explicit Report(Kind kind, std::string_view message = {}) : kind_(std::move(kind)), message_(message) {}

    Report &code(std::string_view code) { return code_ = std::string(code), *this; }
    Report &label(Label label) { return labels_.push_back(std::move(label)), *this; }
    Report &help(std::string_view help) { return helps_.emplace_back(help), *this; }
    Report &note(std::string_view note) { return notes_.emplace_back(note), *this; }
    // The place that the header names. Without it, that is the start of the first label.
    Report &at(std::size_t source, std::size_t start) { return at_ = std::pair(source, start), *this; }

    // The text of a help that shows edits of a source, or an exception: Error, or std::bad_alloc. Each line that
    // changes stands in it as it was (`-`) and as it will be (`+`). It is handed in as a help, as it is or behind a
    // message and a line feed. Of the configuration `byte_offsets`, `ascii`, `tab_width` and `width` count.
    static std::string suggest(const Source &source, const std::vector<Edit> &edits, const Config &config = {}) {
        return suggestion(source, edits, config).value().text;
    }

    // The same as the text of a picture, or why there is none. Of exceptions it throws std::bad_alloc alone.
    static Result suggestion(const Source &source, const std::vector<Edit> &edits, const Config &config = {}) {
        std::vector<sewarqo_edit> given;
        for (const Edit &edit : edits)
            given.push_back({edit.start, edit.end, text_of(edit.text)});
        const sewarqo_suggestion asked = {{{}, text_of(source.text), source.line_offset}, given.data(), given.size(),
                                          flags_of(config), config.tab_width, config.width};
        Picture help{std::string(1024, '\0'), {}};
        std::size_t len = 0, count = 0;
        std::uint32_t status;
        while ((status = sewarqo_suggest(&asked, reinterpret_cast<std::uint8_t *>(help.text.data()),
                                         help.text.size(), &len, &count))
               == SEWARQO_BUFFER_TOO_SMALL)
            help.text.resize(len);
        if (status != SEWARQO_DRAWN)
            return ErrorInfo{status, count};
        help.text.resize(len);
        return help;
    }

    // The picture over these sources, or an exception: Error, or std::bad_alloc.
    std::string render(const std::vector<Source> &sources, const Config &config = {}) const {
        return draw(sources, config).value().text;
    }

    // The picture with the labels that are left out of it, or why there is none. Of exceptions it throws
    // std::bad_alloc alone, where there is no memory for what the call is handed.
    Result draw(const std::vector<Source> &sources, const Config &config = {}) const {
        std::vector<sewarqo_source> given;
        for (const Source &source : sources)
            given.push_back({optional_of(source.name), text_of(source.text), source.line_offset});
        std::vector<sewarqo_label> labels;
        for (const Label &label : labels_)
            labels.push_back({label.source, label.start, label.end, optional_of(label.message),
                              label.color.number(), label.order, label.priority});
        const std::vector<sewarqo_text> helps = texts_of(helps_), notes = texts_of(notes_);
        sewarqo_report report = report_of(config, labels, helps, notes);
        if (config.excerpts)
            report = sewarqo_excerpt(&report, given.data(), given.size(), labels.data());
        return drawn(report, given, labels.size());
    }

private:
    static sewarqo_text text_of(std::string_view text) {
        return {reinterpret_cast<const std::uint8_t *>(text.empty() ? "" : text.data()), text.size()};
    }

    template <typename Text> static sewarqo_optional optional_of(const std::optional<Text> &text) {
        return {text_of(text ? std::string_view(*text) : std::string_view()), text.has_value()};
    }

    static std::vector<sewarqo_text> texts_of(const std::vector<std::string> &texts) {
        std::vector<sewarqo_text> given;
        for (const std::string &text : texts)
            given.push_back(text_of(text));
        return given;
    }

    static std::uint32_t flags_of(const Config &config) {
        std::uint32_t flags = 0;
        for (const detail::Flag &flag : detail::flags)
            flags |= config.*flag.field == flag.is_set_by ? flag.bit : 0;
        return flags;
    }

    sewarqo_report report_of(const Config &config, const std::vector<sewarqo_label> &labels,
                             const std::vector<sewarqo_text> &helps,
                             const std::vector<sewarqo_text> &notes) const {
        sewarqo_report report = {};
        report.kind = kind_.number_;
        report.kind_color = kind_.color_.number();
        report.kind_name = text_of(kind_.name_);
        report.code = optional_of(code_);
        report.message = text_of(message_);
        report.source = at_ ? at_->first : labels.empty() ? SIZE_MAX : labels.front().source;
        report.start = at_ ? at_->second : labels.empty() ? 0 : labels.front().start;
        report.labels = labels.data();
        report.labels_len = labels.size();
        report.helps = helps.data();
        report.helps_len = helps.size();
        report.notes = notes.data();
        report.notes_len = notes.size();
        report.flags = flags_of(config);
        report.attach = static_cast<std::uint32_t>(config.attach);
        report.tab_width = config.tab_width;
        report.context_lines = config.context_lines;
        report.width = config.width;
        return report;
    }

    // Draws, again where the first buffer was too short.
    static Result drawn(const sewarqo_report &report, const std::vector<sewarqo_source> &sources,
                        std::size_t labels) {
        const std::size_t a_label = report.flags & SEWARQO_PLAIN ? 256 : 2048; // (so that few are drawn twice)
        Picture picture{std::string(4096 + a_label * labels, '\0'), std::vector<sewarqo_left_out>(labels)};
        std::size_t len = 0, count = 0;
        std::uint32_t status;
        while ((status = sewarqo_draw(&report, sources.data(), sources.size(),
                                      reinterpret_cast<std::uint8_t *>(picture.text.data()),
                                      picture.text.size(), &len, picture.left_out.data(), labels, &count))
               == SEWARQO_BUFFER_TOO_SMALL)
            picture.text.resize(len);
        if (status > SEWARQO_LEFT_OUT)
            return ErrorInfo{status, count};
        picture.text.resize(len);
        picture.left_out.resize(count);
        return picture;
    }

    Kind kind_;
    std::string message_;
    std::optional<std::string> code_;
    std::optional<std::pair<std::size_t, std::size_t>> at_;
    std::vector<Label> labels_;
    std::vector<std::string> helps_, notes_;
};

} // namespace sewarqo

#endif
