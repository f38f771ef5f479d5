// All that the C++ layer says of the rows of misuses.txt, as answers.c prints it: `answers ROOM < misuses.txt`, or `answers --call
// TMP NVCC WORD..`.
#include <zigrunk.hpp>

#include <deque>
#include <fstream>
#include <iostream>
#include <iterator>
#include <sstream>

#include <unistd.h>

using zigrunk::Texts;

static void print_text(const std::string &name, const std::string &text) {
    static const char digits[] = "0123456789abcdef";
    std::cout << name << ' ';
    for (const unsigned char byte : text) {
        if (byte < 33 || byte > 126 || byte == '\\') {
            std::cout << '\\' << digits[byte / 16] << digits[byte % 16];
        } else {
            std::cout << byte;
        }
    }
    std::cout << '\n';
}

static void print_texts(const std::string &name, const Texts &texts) {
    for (const std::string &text : texts) {
        print_text(name, text);
    }
}

static void print_run(const std::string &name, const std::optional<zigrunk::Run> &run) {
    std::cout << name << '\n';
    if (run) {
        print_texts(" word", run->words), print_texts(" variable", run->environment), print_text(" cwd", run->cwd);
    }
}

static void print_refusal(const zigrunk::Error &error) {
    std::cout << "refused " << error.status << ' ' << error.input << ' ' << error.line << '\n';
    print_text("message", error.message);
}

static void print_call(const zigrunk::Call &call) {
    const std::vector<zigrunk::Run> runs = call.dry_runs();
    print_run("own", runs.at(0)), print_run("first", runs.at(1)), print_run("second", runs.at(2)), print_run("dependencies", call.dependencies());
    print_text("flag", call.flag());
    print_text(call.keep_dir() ? "keep_dir" : "no keep_dir", call.keep_dir().value_or(""));
    print_text("input", call.input()), print_texts("output", call.outputs());
    std::cout << "jobs " << call.jobs() << '\n';
}

static void print_command(const zigrunk::Command &of) {
    const bool is_dropped = of.group == ZIGRUNK_ALL;
    std::cout << "command of " << (is_dropped ? "no" : "a") << " group, " << (is_dropped ? 0 : of.group) << ", stage " << of.stage << ", tool " << of.tool
              << ", missing " << of.missing << ", reason " << of.reason << ", run " << of.dry_run << ", line " << of.line << ", cacheable "
              << of.cacheable << ", preprocesses " << of.preprocesses << '\n';
    print_texts(" word", of.words), print_texts(" variable", of.environment), print_text(" cwd", of.cwd);
    print_texts(" reads", of.reads), print_texts(" writes", of.writes), print_texts(" may write", of.may_write), print_texts(" target", of.targets);
    for (const std::size_t need : of.needs) {
        std::cout << " needs " << need << '\n';
    }
}

static void print_schedule(const zigrunk::Plan &plan) {
    zigrunk::Schedule schedule(plan, 2);
    std::deque<std::size_t> running;
    for (std::size_t told = 0; !schedule.over();) {
        while (const auto next = schedule.start()) {
            std::cout << "start " << *next << '\n';
            running.push_back(*next);
        }
        schedule.ended(running.front(), true);
        running.pop_front();
        while (schedule.tell()) {
            ++told;
        }
        std::cout << "told " << told << '\n';
    }
}

// One slot, and the third command fails.
static void print_failure(const zigrunk::Plan &plan) {
    zigrunk::Schedule schedule(plan, 1);
    std::size_t told = 0;
    while (const auto next = schedule.start()) {
        schedule.ended(*next, *next != 2);
        while (schedule.tell()) {
            ++told;
        }
        std::cout << "alone " << *next << ", told " << told << '\n';
    }
    bool is_taken = true;
    try {
        schedule.ended(0, true);
    } catch (const zigrunk::Error &error) {
        is_taken = error.status != ZIGRUNK_BAD_NUMBER;
    }
    std::cout << "again " << is_taken << '\n';
}

// What a function gives, or why it refuses.
template <typename Function> static bool print_answer(Function function) {
    try {
        function();
        return true;
    } catch (const zigrunk::Error &error) {
        print_refusal(error);
        return false;
    }
}

static void print_own_words(const Texts &words) {
    std::string quoted;
    if (print_answer([&] { print_text("quoted", quoted = zigrunk::quote(words)); })) {
        print_answer([&] { print_texts("split", zigrunk::split(quoted)); });
    }
    print_answer([&] { print_texts("other", zigrunk::remap(words, {".x.ii"})); });
}

// Two dry runs without their line, within a limit: the commands, with those that are dropped.
static void print_alone(const std::string &first, const std::string &second, const std::string &cwd, const std::string &tmp, std::size_t limit) {
    std::cout << "without a line, " << limit << '\n';
    const zigrunk::Plan plan = zigrunk::plan_of(first, second, cwd, tmp, "-c", {"ODD=a b", "EMPTY="}, limit);
    for (const std::vector<zigrunk::Command> &commands : {plan.commands(), plan.dropped()}) {
        for (const zigrunk::Command &command : commands) {
            print_command(command);
        }
    }
    print_answer([&] { print_text("compdb", plan.text("compdb")); });
}

static void print_line(const zigrunk::Command &of) {
    const Texts words(of.words.begin() + 1, of.words.end());
    const zigrunk::Line line = zigrunk::line_records(of.tool, of.cwd, words);
    print_texts(" line", {line.input, line.compilation_flag});
    for (const zigrunk::Output &output : line.outputs) {
        print_text(" line", output.key);
    }
    for (const zigrunk::Output &output : line.outputs) {
        print_text(" line", output.path);
    }
    for (const Texts &texts : {line.dependency_args, line.preprocessor_args, line.common_args, line.arch_args, line.unhashed_args,
             line.extra_dist_files, line.extra_hash_files}) {
        print_texts(" line", texts);
    }
    std::cout << " line of " << line.language << ' ' << line.color_mode << ' ' << line.double_dash_input << ' ' << line.outputs.at(0).is_optional << '\n';
    print_texts(" written", zigrunk::line_words(of.tool, of.cwd, words));
    print_text(" own key", zigrunk::command_key(of.tool, of.words, of.environment, {of.cwd}));
}

static void print_table(const zigrunk::Call &call, const std::string &own, const std::string &first, const std::string &second, const std::string &cwd) {
    zigrunk::Programs programs(std::in_place);
    Texts asked;
    for (const zigrunk::Lookup &lookup : zigrunk::lookups(first, second, cwd)) {
        asked.push_back(lookup.program), asked.push_back(lookup.path);
        programs->push_back({lookup, zigrunk::candidates(lookup, cwd).at(0)});
    }
    print_texts("lookup", asked);
    for (const zigrunk::FoundProgram &of : *programs) {
        print_texts("candidate", zigrunk::candidates(of.lookup, cwd));
    }
    print_text("text", call.plan_of(own, first, second, 0, programs).text("text"));
    programs->at(0).found.reset();
    call.plan_of(own, first, second, 0, programs);
}

static void print_plan(const zigrunk::Plan &plan) {
    for (std::size_t i = 0; i < plan.commands().size(); ++i) {
        print_command(plan.commands()[i]);
        if (plan.commands()[i].tool == ZIGRUNK_TOOL_CICC) {
            print_line(plan.commands()[i]);
        }
        try {
            const zigrunk::Key key = plan.key(i);
            print_text(" key", key.text), print_texts(" key", key.tool_files);
        } catch (const zigrunk::Error &error) {
            print_refusal(error);
        }
    }
    for (const zigrunk::Command &command : plan.dropped()) {
        print_command(command);
    }
    for (const char *format : {"json", "ninja", "shell", "text", "none"}) {
        try {
            print_text(format, plan.text(format));
        } catch (const zigrunk::Error &error) {
            print_refusal(error);
        }
    }
    print_texts("renamed", zigrunk::remap(plan.commands().back().words));
    print_texts("header", zigrunk::headers("# 1 \"a.h\"\n# 2 \"k \\\"b\" 2\n# 3 \"a.h\"\n"));
    print_schedule(plan);
    print_failure(plan);
}

static std::string content(const std::string &path) {
    std::ifstream file(path, std::ios::binary);
    return {std::istreambuf_iterator<char>(file), {}};
}

static void print_row(const std::string &room, const std::string &tmp, const std::string runs[], const Texts &words) {
    print_answer([&] {
        const zigrunk::Call call(room + "/bin/nvcc", words, zigrunk::environment(), room + "/w", tmp);
        print_call(call);
        print_plan(call.plan_of(runs[0], runs[1], runs[2]));
        print_table(call, runs[0], runs[1], runs[2], room + "/w");
    });
    for (const std::size_t limit : {1 << 20, 1000}) {
        print_answer([&] { print_alone(runs[1], runs[2], room + "/w", tmp, limit); });
    }
    print_own_words(words);
}

// The words of a file, each with a NUL behind it.
static Texts words_of(const std::string &text) {
    Texts words;
    std::istringstream all(text);
    for (std::string word; std::getline(all, word, '\0');) {
        words.push_back(word);
    }
    return words;
}

static void print_made(const std::string &tmp, const Texts &words) {
    char cwd[4096];
    const zigrunk::Call call(words[0], Texts(words.begin() + 1, words.end()), zigrunk::environment(), getcwd(cwd, sizeof cwd), tmp);
    print_call(call);
    print_plan(call.plan());
}

int main(int count, char **arguments) {
    if (count < 2) {
        return 2;
    }
    const std::string room = arguments[1];
    if (count > 3 && room == "--call") {
        try {
            print_made(arguments[2], Texts(arguments + 3, arguments + count));
        } catch (const zigrunk::Error &error) {
            print_refusal(error);
        }
        return 0;
    }
    for (std::string row; std::getline(std::cin, row);) {
        std::istringstream words(row);
        std::string name, tmp, first, second, skipped, own, line;
        words >> name >> tmp >> first >> second >> skipped >> skipped >> skipped >> own >> line;
        std::cout << "== " << name << '\n';
        const std::string runs[] = {content(room + "/" + own), content(room + "/" + first), content(room + "/" + second)};
        print_row(room, room + "/" + tmp, runs, words_of(content(room + "/" + line)));
    }
}
