// Draws cases over whole sources and over excerpts (Config::excerpts), and compares both with the picture of the
// case, and with one another: the status and the labels that are left out. Each line of standard input is a case, in
// the words that bindings/rust/examples/cases.rs reads. A case without a picture is drawn alike by both, unless the
// whole is refused for the numbers of its lines. The last line is 'N cases, M differ', and the status 1 where M > 0.
#include "sewarqo.hpp"
#include <algorithm>
#include <iostream>
#include <list>
#include <sstream>

// The words of a line.
class Words {
public:
    explicit Words(const std::string &line) : words_(line) { words_.exceptions(std::ios::failbit); }

    bool has_more() { return !words_.eof() && !(words_ >> std::ws).eof(); }

    template <typename Word> Word next() {
        Word word{};
        words_ >> word;
        return word;
    }

    // A text in hexadecimal behind an `x`, or none.
    std::optional<std::string> optional() {
        const auto digits = next<std::string>();
        if (digits.front() != 'x')
            return std::nullopt;
        std::string text;
        for (std::size_t at = 1; at < digits.size(); at += 2)
            text += static_cast<char>(std::stoi(digits.substr(at, 2), nullptr, 16));
        return text;
    }

    std::string text() { return optional().value_or(""); }

private:
    std::istringstream words_;
};

// The sources of a case, and the texts that they lend.
class Sources {
public:
    void read(Words &words) {
        const std::string &name = texts_.emplace_back(words.text());
        ids_.push_back(name);
        const bool has_name = words.next<int>() != 0;
        const std::string &text = texts_.emplace_back(words.text());
        given_.push_back({text, has_name ? std::optional<std::string_view>(name) : std::nullopt,
                          words.next<std::size_t>()});
    }

    // The number of the last source of an id, or how many there are where none has it.
    std::size_t number_of(const std::string &id) const {
        const auto found = std::find(ids_.rbegin(), ids_.rend(), id);
        return static_cast<std::size_t>(found == ids_.rend() ? ids_.rend() - ids_.rbegin() : ids_.rend() - found - 1);
    }

    const std::vector<sewarqo::Source> &given() const { return given_; }

private:
    std::vector<std::string> ids_;
    std::list<std::string> texts_;
    std::vector<sewarqo::Source> given_;
};

static sewarqo::Kind read_kind(Words &words) {
    const std::string name = words.text();
    const sewarqo::Color color(words.next<std::uint32_t>());
    const bool has_color = color.number() != SEWARQO_NO_COLOR;
    return name == "Error"     ? sewarqo::Kind::error()
           : name == "Warning" ? sewarqo::Kind::warning()
           : name == "Advice"  ? sewarqo::Kind::advice()
                               : sewarqo::Kind::custom(name, has_color ? color : sewarqo::Color(SEWARQO_PRIMARY));
}

static sewarqo::Config read_config(Words &words) {
    const auto flags = words.next<std::uint32_t>();
    sewarqo::Config config;
    for (const sewarqo::detail::Flag &flag : sewarqo::detail::flags)
        config.*flag.field = ((flags & flag.bit) != 0) == flag.is_set_by;
    config.attach = static_cast<sewarqo::Attach>(words.next<std::uint32_t>());
    config.tab_width = words.next<std::size_t>();
    config.context_lines = words.next<std::size_t>();
    config.width = words.next<std::size_t>();
    return config;
}

static sewarqo::Label read_label(Words &words, const Sources &sources) {
    const std::size_t source = sources.number_of(words.text());
    const auto start = words.next<std::size_t>(), end = words.next<std::size_t>();
    sewarqo::Label label(source, start, end);
    label.message = words.optional();
    label.color = sewarqo::Color(words.next<std::uint32_t>());
    label.order = words.next<std::int32_t>();
    label.priority = words.next<std::int32_t>();
    return label;
}

static sewarqo::Edit read_edit(Words &words) {
    const auto start = words.next<std::size_t>(), end = words.next<std::size_t>();
    return {start, end, words.text()};
}

static bool are_same(const sewarqo_left_out &one, const sewarqo_left_out &other) {
    return one.label == other.label && one.reason == other.reason;
}

static bool are_alike(sewarqo::Result &one, sewarqo::Result &other) {
    if (!one || !other)
        return one.error().status == SEWARQO_ERR_SOURCE_LINES
               || (!one && !other && one.error().status == other.error().status);
    const sewarqo::Picture &whole = one.value(), &cut = other.value();
    return whole.text == cut.text
           && std::equal(whole.left_out.begin(), whole.left_out.end(), cut.left_out.begin(), cut.left_out.end(), are_same);
}

// Draws a case, and returns whether both pictures are the wanted one.
static bool is_drawn(Words words) {
    words.text(); // its name
    sewarqo::Report report = [&words] {
        const sewarqo::Kind kind = read_kind(words);
        const std::optional<std::string> code = words.optional();
        sewarqo::Report made(kind, words.text());
        return code ? made.code(*code) : made;
    }();
    const std::string own = words.text();
    const auto start = words.next<std::size_t>();
    sewarqo::Config config = read_config(words);
    const std::string wanted = words.text();
    Sources sources; // (Their words stand in front of those of labels.)
    std::vector<sewarqo::Edit> edits;
    while (words.has_more()) {
        const auto what = words.next<std::string>();
        if (what == "source")
            sources.read(words);
        else if (what == "label")
            report.label(read_label(words, sources));
        else if (what == "help")
            report.help(words.text());
        else if (what == "note")
            report.note(words.text());
        else if (what == "edit")
            edits.push_back(read_edit(words));
        else
            throw std::invalid_argument("a case has no " + what);
    }
    report.at(sources.number_of(own), start);
    if (!edits.empty())
        report.help(sewarqo::Report::suggest(sources.given().front(), edits, config));
    sewarqo::Result whole = report.draw(sources.given(), config);
    config.excerpts = true;
    sewarqo::Result cut = report.draw(sources.given(), config);
    const bool is_wanted = wanted.empty() || (whole && whole.value().text == wanted);
    if (whole && !is_wanted)
        std::cout << "fault: drawn is\n" << whole.value();
    return is_wanted && are_alike(whole, cut);
}

int main() {
    std::size_t cases = 0, differ = 0;
    for (std::string line; std::getline(std::cin, line); cases++) {
        if (is_drawn(Words(line)))
            continue;
        differ++;
        std::cout << "fault: case " << cases + 1 << " differs\n";
    }
    std::cout << cases << " cases, " << differ << " differ\n";
    return differ > 0;
}
