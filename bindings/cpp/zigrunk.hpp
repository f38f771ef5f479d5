// An nvcc call from its words to its plan, for C++17, over zigrunk.h. This file is enough, with libzigrunk.
//
//     const zigrunk::Call call("nvcc", {"-c", "k.cu"}, zigrunk::environment(), cwd, tmp);
//     for (const zigrunk::Command &command : call.plan().commands()) ..
//
// What refuses throws zigrunk::Error. Threads may share calls and plans; a schedule is for one thread at a time. Texts may be any bytes.
#ifndef ZIGRUNK_HPP
#define ZIGRUNK_HPP

#include <zigrunk.h>

#include <cstddef>
#include <cstdint>
#include <memory>
#include <optional>
#include <stdexcept>
#include <string>
#include <string_view>
#include <utility>
#include <vector>

extern "C" char **environ;

namespace zigrunk {

using Texts = std::vector<std::string>;

// Why a call is refused: ZIGRUNK_TO_NVCC if nvcc has to make it itself. `input` is ZIGRUNK_INPUT_FIRST .. or 0, `line` that of a dry run, from 1,
// or 0. what() ends at a NUL, which a dry run may have; `message` has all.
struct Error : std::runtime_error {
    Error(std::int32_t status_, std::uint32_t input_, std::size_t line_, const std::string &message_)
        : std::runtime_error(message_), message(message_), status(status_), input(input_), line(line_) {}
    std::string message;
    std::int32_t status;
    std::uint32_t input;
    std::size_t line;
};

// A program that dry runs name, and the value of PATH there.
struct Lookup {
    std::string program, path;
};

// A look-up, and the path that it found, if there is such a program.
struct FoundProgram {
    Lookup lookup;
    std::optional<std::string> found;
};

// Where the programs are that dry runs name; none looks on this machine's disk.
using Programs = std::optional<std::vector<FoundProgram>>;

namespace own {

struct Free {
    void operator()(void *made) const { zigrunk_free(made); }
};

template <typename Made> using Owned = std::unique_ptr<Made, Free>;

inline std::string text(const zigrunk_text &of) {
    return of.length ? std::string(of.bytes, of.length) : std::string();
}

inline Texts texts(const zigrunk_texts &of) {
    Texts made;
    made.reserve(of.count);
    for (std::size_t i = 0; i < of.count; ++i) {
        made.emplace_back(of.items[i], of.lengths[i]);
    }
    return made;
}

inline zigrunk_text given(std::string_view text) {
    return {text.data(), text.size()};
}

// Texts as C takes them.
struct Given {
    explicit Given(const Texts &texts) {
        for (const std::string &text : texts) {
            items.push_back(text.data()), lengths.push_back(text.size());
        }
    }
    operator zigrunk_texts() const { return {items.data(), lengths.data(), items.size()}; }
    std::vector<const char *> items;
    std::vector<std::size_t> lengths;
};

// A table of programs as C takes it: none looks on this machine's disk.
struct Table {
    explicit Table(const Programs &programs) : is_given(programs.has_value()) {
        rows.reserve(programs ? programs->size() + 1 : 0);
        for (std::size_t i = 0; programs && i < programs->size(); ++i) {
            const FoundProgram &of = (*programs)[i];
            rows.push_back({given(of.lookup.program), given(of.lookup.path), of.found ? given(*of.found) : zigrunk_text{nullptr, 0}});
        }
    }
    const zigrunk_found_program *items() const { return is_given ? rows.data() : nullptr; }
    std::vector<zigrunk_found_program> rows;
    bool is_given;
};

// Calls a function, whose last two parameters are what it made and why not. Throws the latter.
template <typename Made, typename Function, typename... Passed> Owned<Made> made(Function function, const Passed &...passed) {
    Made *made = nullptr;
    zigrunk_error *refused = nullptr;
    const std::int32_t status = function(passed..., &made, &refused);
    const Owned<Made> whole(made);
    const Owned<zigrunk_error> error(refused);
    if (status != ZIGRUNK_OK) {
        throw Error(status, error->input, error->line, text(error->message));
    }
    return Owned<Made>(const_cast<Owned<Made> &>(whole).release());
}

template <typename Function, typename... Passed> Texts answer(Function function, const Passed &...passed) {
    return texts(made<zigrunk_answer>(function, passed...)->texts);
}

} // namespace own

// A program to run, without a shell: its name or path and its words, all of its environment as NAME=VALUE, and its directory.
struct Run {
    Run() = default;
    Run(Texts words_, Texts environment_, std::string cwd_) : words(std::move(words_)), environment(std::move(environment_)), cwd(std::move(cwd_)) {}
    explicit Run(const zigrunk_run &of) : Run(own::texts(of.words), own::texts(of.environment), own::text(of.cwd)) {}
    Texts words;
    Texts environment;
    std::string cwd;
};

// A command of a plan: zigrunk_command says what its fields are.
struct Command : Run {
    explicit Command(const zigrunk_command &of)
        : Run(own::texts(of.words), own::texts(of.environment), own::text(of.cwd)), reads(own::texts(of.reads)), writes(own::texts(of.writes)),
          may_write(own::texts(of.may_write)), targets(own::texts(of.targets)), needs(of.needs, of.needs + of.needs_count), group(of.group),
          dry_run(of.dry_run), line(of.line), stage(of.stage), tool(of.tool), missing(of.missing), reason(of.reason),
          cacheable(of.is_cacheable != 0), preprocesses(of.preprocesses != 0) {}
    Texts reads, writes, may_write, targets;
    std::vector<std::size_t> needs;
    std::size_t group, dry_run, line;
    std::uint32_t stage, tool, missing, reason;
    bool cacheable, preprocesses;
};

// What a cache hashes of a command: this text, then the contents of the tool's files, and of what the command reads.
struct Key {
    std::string text;
    Texts tool_files;
};

// What one nvcc call runs.
class Plan {
public:
    explicit Plan(own::Owned<zigrunk_plan> plan) : plan_(std::move(plan)) {
        const zigrunk_commands &all = *zigrunk_plan_commands(plan_.get());
        for (std::size_t i = 0; i < all.count; ++i) {
            (i < all.count - all.dropped ? commands_ : dropped_).emplace_back(all.items[i]);
        }
    }
    // The commands of its groups, in order.
    const std::vector<Command> &commands() const & { return commands_; }
    std::vector<Command> commands() && { return std::move(commands_); }
    // Those that it dropped, each with its reason.
    const std::vector<Command> &dropped() const & { return dropped_; }
    std::vector<Command> dropped() && { return std::move(dropped_); }
    // The plan as "json", "ninja", "shell", "compdb" or "text".
    std::string text(std::string_view format) const { return own::answer(zigrunk_plan_text, plan_.get(), own::given(format)).at(0); }
    // The key of a command, by its number: zigrunk_plan_key says what it is for, and when it throws.
    Key key(std::size_t number) const {
        Texts texts = own::answer(zigrunk_plan_key, plan_.get(), number);
        return {texts.at(0), Texts(texts.begin() + 1, texts.end())};
    }
    const zigrunk_plan *get() const { return plan_.get(); }

private:
    own::Owned<zigrunk_plan> plan_;
    std::vector<Command> commands_, dropped_;
};

// Plans two dry runs alone, with generated files under canonical names: zigrunk_plan_call says what they are.
inline Plan plan_of(std::string_view dry1, std::string_view dry2, std::string_view cwd, std::string_view tmp, std::string_view flag,
    const Texts &environment = {}, std::size_t limit = 0, const Programs &programs = {}) {
    const own::Given variables(environment);
    const own::Table table(programs);
    const zigrunk_plan_call given{own::given(dry1), own::given(dry2), own::given(cwd), own::given(tmp), own::given(flag), variables, {}, table.items(),
        table.rows.size(), limit, ZIGRUNK_GCC, 0};
    return Plan(own::made<zigrunk_plan>(zigrunk_plan_of, &given));
}

// A call of nvcc: its words without nvcc's name, all of its environment (nvcc reads NVCC_PREPEND_FLAGS and NVCC_APPEND_FLAGS there, and the
// commands run in it), its directory, and one for temporary files, which has to be there.
class Call {
public:
    Call(std::string_view nvcc, const Texts &words, const Texts &environment, std::string_view cwd, std::string_view tmp) {
        const own::Given line(words), variables(environment);
        const zigrunk_nvcc_call given{own::given(nvcc), line, variables, own::given(cwd), own::given(tmp)};
        call_ = own::made<zigrunk_call>(zigrunk_call_of, &given);
    }
    // The dry runs: of the line as it is, and the two that are planned. plan() runs what it needs of them; to run them elsewhere, pass what they
    // print to standard error to plan_of.
    std::vector<Run> dry_runs() const { return {Run(outline().own_dry_run), Run(outline().first_dry_run), Run(outline().second_dry_run)}; }
    // What writes the dependency file, if the line asks for one. It's no command of the plan.
    std::optional<Run> dependencies() const {
        return outline().dependencies.words.count ? std::optional<Run>(outline().dependencies) : std::nullopt;
    }
    std::string flag() const { return own::text(outline().flag); }
    std::optional<std::string> keep_dir() const {
        return outline().keep_dir.bytes ? std::optional<std::string>(own::text(outline().keep_dir)) : std::nullopt;
    }
    // How many commands may run at once, or 0 if nothing says it.
    std::size_t jobs() const { return outline().jobs; }
    std::string input() const { return own::text(outline().input); }
    // What the call makes: the product, and the dependency file if there is one.
    Texts outputs() const { return own::texts(outline().outputs); }
    // Runs the dry runs, and plans.
    Plan plan() const { return Plan(own::made<zigrunk_plan>(zigrunk_call_plan, call_.get())); }
    // Plans what the dry runs printed: zigrunk_call_plan_of says what it checks.
    Plan plan_of(std::string_view own_run, std::string_view first, std::string_view second, std::size_t limit = 0, const Programs &programs = {}) const {
        const own::Table table(programs);
        const zigrunk_dry_runs given{own::given(own_run), own::given(first), own::given(second), table.items(), table.rows.size(), limit};
        return Plan(own::made<zigrunk_plan>(zigrunk_call_plan_of, call_.get(), &given));
    }

private:
    const zigrunk_outline &outline() const { return *zigrunk_call_outline(call_.get()); }
    own::Owned<zigrunk_call> call_;
};

// Which command of a plan may start next, and which outputs may be printed. It starts nothing: you say what happened. Of the commands that may
// start, the one is next for which others wait longest, by how long such commands usually take.
class Schedule {
public:
    Schedule(const Plan &plan, std::size_t slots, std::uint32_t after_failure = ZIGRUNK_START_EARLIER) : size_(plan.commands().size()) {
        const zigrunk_plan *const plans = plan.get();
        const zigrunk_schedule_call given{&plans, 1, nullptr, 0, slots, after_failure};
        schedule_ = own::made<zigrunk_schedule>(zigrunk_schedule_of, &given);
    }
    std::size_t size() const { return size_; }
    // Whether nothing runs and nothing may start.
    bool over() const { return zigrunk_schedule_progress(schedule_.get(), 0, size_).is_over != 0; }
    // The next command that may start, which counts as started; none if none may.
    std::optional<std::size_t> start() {
        const std::size_t command = zigrunk_schedule_start(schedule_.get());
        return command == ZIGRUNK_ALL ? std::nullopt : std::optional<std::size_t>(command);
    }
    void ended(std::size_t command, bool succeeded) {
        if (zigrunk_schedule_ended(schedule_.get(), command, succeeded ? ZIGRUNK_SUCCEEDED : ZIGRUNK_FAILED) != ZIGRUNK_OK) {
            throw Error(ZIGRUNK_BAD_NUMBER, 0, 0, "the command doesn't run");
        }
    }
    // The next command whose output may be printed: in the plan's order, up to the first that fails. None for now, or none any more.
    std::optional<std::size_t> tell() {
        const zigrunk_progress progress = zigrunk_schedule_progress(schedule_.get(), told_, size_);
        if (failed_ || progress.told == told_) {
            return std::nullopt;
        }
        failed_ = progress.status == ZIGRUNK_ONE_FAILED && progress.told == told_ + 1;
        return told_++;
    }

private:
    own::Owned<zigrunk_schedule> schedule_;
    std::size_t size_, told_ = 0;
    bool failed_ = false;
};

// The environment of this process.
inline Texts environment() {
    Texts made;
    for (char **variable = environ; variable && *variable; ++variable) {
        made.emplace_back(*variable);
    }
    return made;
}

// Words as one text, which a POSIX shell reads as these words.
inline std::string quote(const Texts &words) {
    return own::answer(zigrunk_quote, static_cast<zigrunk_texts>(own::Given(words))).at(0);
}

// The words that a POSIX shell reads in a text.
inline Texts split(std::string_view text) {
    return own::answer(zigrunk_split, own::given(text));
}

// Words with canonical names for the files that nvcc generates.
inline Texts remap(const Texts &words, const Texts &suffixes = {}) {
    const own::Given line(words), more(suffixes);
    return own::answer(zigrunk_remap, static_cast<zigrunk_texts>(line), static_cast<zigrunk_texts>(more));
}

// The look-ups of programs that a plan of two dry runs needs, none twice.
inline std::vector<Lookup> lookups(std::string_view dry1, std::string_view dry2, std::string_view cwd, std::size_t limit = 0) {
    const Texts texts = own::answer(zigrunk_lookups, own::given(dry1), own::given(dry2), own::given(cwd), limit);
    std::vector<Lookup> made;
    for (std::size_t i = 0; i + 1 < texts.size(); i += 2) {
        made.push_back({texts[i], texts[i + 1]});
    }
    return made;
}

// The paths that a look-up tries, in order: the first that is an executable file is the program.
inline Texts candidates(const Lookup &of, std::string_view cwd) {
    return own::answer(zigrunk_candidates, own::given(of.program), own::given(of.path), own::given(cwd));
}

// A file that a line of a tool makes: what it is, as "obj", its path, and whether the command may leave it out.
struct Output {
    std::string key, path;
    bool is_optional;
};

// What a line of a tool says. zigrunk_line says what its fields are.
struct Line {
    explicit Line(const zigrunk_line &of)
        : input(own::text(of.input)), compilation_flag(own::text(of.compilation_flag)), dependency_args(own::texts(of.dependency_args)),
          preprocessor_args(own::texts(of.preprocessor_args)), common_args(own::texts(of.common_args)), arch_args(own::texts(of.arch_args)),
          unhashed_args(own::texts(of.unhashed_args)), extra_dist_files(own::texts(of.extra_dist_files)),
          extra_hash_files(own::texts(of.extra_hash_files)), language(of.language), color_mode(of.color_mode),
          double_dash_input(of.double_dash_input != 0) {
        const Texts keys = own::texts(of.output_keys), paths = own::texts(of.output_paths);
        for (std::size_t i = 0; i < keys.size(); ++i) {
            outputs.push_back({keys[i], paths[i], of.output_is_optional[i] != 0});
        }
    }
    std::string input, compilation_flag;
    std::vector<Output> outputs;
    Texts dependency_args, preprocessor_args, common_args, arch_args, unhashed_args, extra_dist_files, extra_hash_files;
    std::uint32_t language, color_mode;
    bool double_dash_input;
};

// What a line of a tool, ZIGRUNK_TOOL_CICC .. ZIGRUNK_TOOL_NVCXX, says: its words are without the tool's name.
inline Line line_records(std::uint32_t tool, std::string_view cwd, const Texts &words, const Texts &environment = {}) {
    const own::Given line(words), variables(environment);
    const zigrunk_line_call given{own::given(cwd), line, variables, tool};
    return Line(*own::made<zigrunk_line>(zigrunk_line_records, &given));
}

// The words that it is written back as.
inline Texts line_words(std::uint32_t tool, std::string_view cwd, const Texts &words, const Texts &environment = {}) {
    const own::Given line(words), variables(environment);
    const zigrunk_line_call given{own::given(cwd), line, variables, tool};
    return own::answer(zigrunk_line_words, &given);
}

// What a cache hashes of a command that no plan has: zigrunk_command_key says what it is for.
inline std::string command_key(std::uint32_t tool, const Texts &words, const Texts &environment, const Texts &roots = {}) {
    const own::Given line(words), variables(environment), folders(roots);
    const zigrunk_key_call given{line, variables, folders, tool};
    return own::answer(zigrunk_command_key, &given).at(0);
}

// The files that the output of a preprocessor names.
inline Texts headers(std::string_view output) {
    return own::answer(zigrunk_headers, own::given(output));
}

} // namespace zigrunk

#endif
