// Draws the stored cases "the report that each language draws" (plain) and "..., in colors" (colors):
// draw plain|colors. Then it looks at a refusal, as a value and (where there are any) as an exception, at
// a text with an escape, and at a message that is a std::string_view.
#include "sewarqo.hpp"
#include <iostream>

static sewarqo::Report report() {
    using sewarqo::Color;
    sewarqo::Report report(sewarqo::Kind::error(), "Incompatible types");
    report.code("03")
        .at(0, 32)
        .label({0, 32, 33, "This is of type Nat", Color::fixed(201)})
        .label({0, 42, 45, "This is of type Str", Color::fixed(155)})
        .label({0, 11, 48, "The values are outputs of this match expression", Color::fixed(81)})
        .label({1, 12, 15, "Nat is asked for here"})
        .note("Outputs of match expressions must coerce to the same type");
    return report;
}

static bool is_refused(const sewarqo::Report &report, const std::vector<sewarqo::Source> &sources,
                       std::uint32_t status, std::size_t number) {
    const sewarqo::ErrorInfo refusal = report.draw(sources).error();
    const bool is_value = refusal.status == status && refusal.number == number;
#ifdef __cpp_exceptions
    try {
        report.render(sources);
    } catch (const sewarqo::Error &error) {
        return is_value && error.info().status == status;
    }
    return false;
#else
    return is_value;
#endif
}

static bool is_safe() {
    const std::string_view message = "\x1b[1mhere";
    sewarqo::Report report(sewarqo::Kind::error(), "m");
    report.label({0, 0, 1, message}).label({0, 1, 2, std::string("there")}).label({0, 2, 3});
    sewarqo::Config config;
    config.color = false;
    const std::string safe = report.render({{"abc"}}, config);
    config.safe = false;
    const std::string as_is = report.render({{"abc"}}, config);
    return safe.find('\x1b') == std::string::npos && safe.find("\xe2\x90\x9b[1mhere") != std::string::npos
           && as_is.find(message) != std::string::npos;
}

int main(int argc, char **argv) {
    const bool is_plain = argc == 2 && std::string_view(argv[1]) == "plain";
    const std::vector<sewarqo::Source> sources = {
        {"def five = match () in {\n\t() => 5,\n\t() => \"5\",\n}\n\ndef six =\n    five\n    + 1\n", "sample.tao"},
        {"def seven : Nat = five\n", "lib.tao", 40},
    };
    sewarqo::Config config;
    config.color = !is_plain;
    config.ascii = is_plain;
    std::cout << report().render(sources, config);
    const bool labels = is_refused(report().label({2, 0, 0}), sources, SEWARQO_ERR_LABEL_SOURCE, 4);
    const bool texts = is_refused(report().note("\xff"), sources, SEWARQO_ERR_NOTE, 1);
    return labels && texts && is_safe() ? 0 : 1;
}
