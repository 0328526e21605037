// Uses the header as those who write C++ do: streams, the text of an exception, and offsets. What is wanted was
// written by hand. The last line is 'N looked at, M faults', and the status 1 where M > 0.
#include "sewarqo.hpp"
#include <iomanip>
#include <iostream>
#include <sstream>

static std::size_t looked = 0, faults = 0;

static void see(std::string_view what, std::string_view got, std::string_view wanted) {
    looked++;
    if (got == wanted)
        return;
    faults++;
    std::cout << "fault: " << what << ": " << got << '\n';
}

template <typename Value> static std::string written(const Value &value) {
    std::ostringstream out;
    out << value;
    return out.str();
}

static sewarqo::Config plain() {
    sewarqo::Config config;
    config.color = false;
    config.ascii = true;
    return config;
}

static void streams() {
    const sewarqo::Report report(sewarqo::Kind::advice(), "m");
    const sewarqo::Result drawn = report.draw({}, plain());
    see("a picture", written(report.draw({}, plain()).value()), "Advice: m\n");
    see("no refusal", drawn ? "drawn" : written(drawn.error()), "drawn");
    sewarqo::Report refused(sewarqo::Kind::error());
    refused.label({0, 0, 1}).label({0, 3, 2});
    see("a refusal", written(refused.draw({{"abcd"}}).error()), "label 1: it ends before it starts");
    see("of a field", written(sewarqo::ErrorInfo{SEWARQO_ERR_MESSAGE, 0}), "the message is not UTF-8");
    see("of a source", sewarqo::ErrorInfo{SEWARQO_ERR_SOURCE_TEXT, 3}.text(), "source 3: its text is not UTF-8");
    std::ostringstream out;
    out << std::setw(12) << std::setfill('.') << report.draw({}, plain()).value() << '|';
    see("a width", out.str(), "..Advice: m\n|");
#ifdef __cpp_exceptions
    try {
        refused.render({{"abcd"}});
        see("an exception", "none", "");
    } catch (const std::exception &error) {
        see("an exception", error.what(), "sewarqo: label 1: it ends before it starts");
    }
#endif
}

static void offsets() {
    const std::string_view text = "ab\nd\xc3\xa9" "f\r\n";
    const std::size_t none = SIZE_MAX;
    see("the version", written(sewarqo::version()), SEWARQO_VERSION);
    see("characters", written(sewarqo::offset(text, 2, 3)), "5");
    see("bytes", written(sewarqo::offset(text, 2, 4, true)), "6");
    see("past its line", written(sewarqo::offset(text, 2, 99)), "6");
    see("the last line", written(sewarqo::offset(text, 3, 1)), "8");
    see("no line", sewarqo::offset(text, 4, 1) == none ? "none" : "some", "none");
    see("no text", written(sewarqo::offset({}, 1, 1)), "0");
}

static void suggestions() {
    using sewarqo::Report;
    const sewarqo::Source source = {"fn f() {\n    g(d\xc3\xa9j);\n}\n", std::nullopt, 40};
    const std::string one = "42 -     g(d\xc3\xa9j);\n42 +     g(&d\xc3\xa9j);";
    const std::string two = "42 -     g(d\xc3\xa9j);\n42 +     g(&dxj);";
    sewarqo::Config bytes;
    bytes.byte_offsets = true;
    see("put in", Report::suggest(source, {{15, 15, "&"}}), one);
    see("put in, in bytes", Report::suggest(source, {{15, 15, "&"}}, bytes), one);
    see("two edits", Report::suggest(source, {{16, 17, "x"}, {15, 15, "&"}}), two);
    see("two, in bytes", Report::suggest(source, {{16, 18, "x"}, {15, 15, "&"}}, bytes), two);
    see("nothing", Report::suggest(source, {}), "");
    const std::string wide = "1 - a\n1 + " + std::string(2000, 'x');
    see("a long text", Report::suggest({"a"}, {{0, 1, std::string(2000, 'x')}}), wide);
    const auto refused = [&](std::vector<sewarqo::Edit> edits) {
        const sewarqo::Result result = Report::suggestion(source, edits, bytes);
        return result ? std::string("told") : result.error().text();
    };
    see("backwards", refused({{0, 0, ""}, {3, 2, ""}}), "edit 1: it ends before it starts");
    see("overlapping", refused({{4, 6, ""}, {2, 5, ""}}), "edit 0: it starts before the end of the edit in front of it");
    see("past the source", refused({{0, 99, ""}}), "edit 0: it reaches past the source");
    see("a cut character", refused({{17, 18, ""}}), "edit 0: one of its ends is inside a character");
    see("not UTF-8", refused({{0, 0, "\xff"}}), "edit 0: its text is not UTF-8");
#ifdef __cpp_exceptions
    try {
        Report::suggest(source, {{3, 2, ""}});
        see("an exception", "none", "");
    } catch (const sewarqo::Error &error) {
        see("an exception", error.what(), "sewarqo: edit 0: it ends before it starts");
    }
#endif
    Report report(sewarqo::Kind::error(), "m");
    report.help("borrow it:\n" + Report::suggest(source, {{15, 15, "&"}}));
    see("a report with it", report.render({}, plain()), "Error: m\n");
}

static void excerpts() {
    sewarqo::Config cut = plain();
    cut.excerpts = true;
    // (The label is on the b of line 4, behind ends of lines of each kind.)
    sewarqo::Report report(sewarqo::Kind::error(), "m");
    report.label({0, 7, 8, "here"});
    const std::vector<sewarqo::Source> sources = {{"a\n\xc3\xa9\r\n\xe2\x80\xa8" "ab\nc\n"}};
    const std::string wanted = "Error: m\n   ,-[ <unknown>:4:2 ]\n   |\n 4 | ab\n   |  |  \n   |  `-- here\n---'\n";
    see("a whole source", report.render(sources, plain()), wanted);
    see("an excerpt", report.render(sources, cut), wanted);
    sewarqo::Report second(sewarqo::Kind::error(), "m");
    second.label({0, 2, 3, "here"});
    cut.byte_offsets = true;
    see("no text in front", second.draw({{"\xff\nb"}}, cut).value().text,
        "Error: m\n   ,-[ <unknown>:2:1 ]\n   |\n 2 | b\n   | |  \n   | `-- here\n---'\n");
}

static void colors() {
    see("of the palette", written(sewarqo::Color::fixed(81).number()), "337");
    see("of three", written(sewarqo::Color::rgb(1, 2, 255).number()), "16843519");
    see("the same in C", written(SEWARQO_RGB(1, 2, 255) + SEWARQO_FIXED(81)), "16843856");
}

int main() {
    streams();
    offsets();
    suggestions();
    excerpts();
    colors();
    std::cout << looked << " looked at, " << faults << " faults\n";
    return faults != 0;
}
