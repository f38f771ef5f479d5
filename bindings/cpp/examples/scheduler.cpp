// Makes what nvcc makes, on workers that share no disk with this machine or each other: `scheduler WORKER.. -- WORD..` in place of `nvcc WORD..`. A
// WORKER is what a shell runs in front of a script, such as 'ssh node'; one that is there twice runs two commands at once. A command gets the files
// that it reads, and sends back those that it writes. Preprocessors run here, since they read headers. What the commands print comes in the order in
// which nvcc prints it, and the status is nvcc's.
#include <zigrunk.hpp>

#include <algorithm>
#include <cstdlib>
#include <filesystem>
#include <fstream>
#include <iostream>
#include <map>
#include <sys/wait.h>
#include <unistd.h>

namespace {

using zigrunk::Command, zigrunk::quote, zigrunk::Texts;

std::vector<char *> pointers(const Texts &list) {
    std::vector<char *> made(list.size() + 1);
    std::transform(list.begin(), list.end(), made.begin(), [](const std::string &text) { return const_cast<char *>(text.c_str()); });
    return made;
}

pid_t start(const zigrunk::Run &run) {
    std::vector<char *> words = pointers(run.words), environment = pointers(run.environment);
    const pid_t process = fork();
    if (process == 0) {
        if (chdir(run.cwd.c_str()) == 0) {
            environ = environment.data();
            execvp(words[0], words.data());
        }
        std::perror(words[0]);
        _exit(127);
    }
    return process;
}

// Runs a program and waits for it.
int made(const zigrunk::Run &run) {
    int status = 127 << 8;
    const pid_t process = start(run);
    while (process > 0 && waitpid(process, &status, 0) < 0 && errno == EINTR) {
    }
    return WIFEXITED(status) ? WEXITSTATUS(status) : 128 + WTERMSIG(status);
}

void append(Texts &to, const Texts &more) { to.insert(to.end(), more.begin(), more.end()); }

Texts written(const Command &command) {
    Texts files = command.writes;
    return append(files, command.may_write), files;
}

// The files that a command reads: those of its words, and what commands before it wrote for it.
Texts read(const zigrunk::Plan &plan, const Command &command) {
    Texts files = command.reads;
    for (std::size_t i = 0; command.missing != ZIGRUNK_NONE_MISSING && i < command.needs.size(); ++i) {
        append(files, written(plan.commands()[command.needs[i]]));
    }
    files.erase(std::remove_if(files.begin(), files.end(), [](const std::string &path) { return !std::filesystem::exists(path); }), files.end());
    return files;
}

// A shell's text that runs a command. What it prints, and its status, come to files.
std::string script(const Command &command, const std::string &said) {
    Texts words = command.environment, folders{command.cwd, std::filesystem::path(said).parent_path()};
    append(words, command.words);
    for (const std::string &path : written(command)) {
        folders.push_back(std::filesystem::path(path).parent_path());
    }
    return "mkdir -p " + quote(folders) + " && ( cd " + quote({command.cwd}) + " && exec env -i " + quote(words) + " ) < /dev/null > " + quote({said + ".output"})
        + " 2> " + quote({said + ".errors"}) + "; echo $? > " + quote({said + ".status"});
}

// The same on a worker, with the files that go there and come back.
std::string script_on(const std::string &worker, const zigrunk::Plan &plan, const Command &command, const std::string &said) {
    Texts back = written(command), files = read(plan, command);
    append(back, {said + ".output", said + ".errors", said + ".status"});
    const std::string there = "tar -xPf -; " + script(command, said) + "; tar -cPf - " + quote(back) + " 2> /dev/null";
    return "tar -cPf - " + quote(files) + " | " + worker + " " + quote({there}) + " | tar -xPf -";
}

// The status of a command that ended; 127 if its worker was lost.
int status_of(const std::string &said) {
    int status = 127;
    return std::ifstream(said + ".status") >> status, status;
}

void print(const std::string &path, std::ostream &to) {
    if (std::ifstream file{path}; file.peek() != EOF) {
        to << file.rdbuf() << std::flush;
    }
}

// Runs the commands of a plan, and returns the status of the last one that nvcc would have run.
int run_plan(const zigrunk::Plan &plan, Texts free, const std::string &tmp) {
    zigrunk::Schedule schedule(plan, free.size());
    std::map<pid_t, std::pair<std::size_t, std::string>> running;
    const auto said = [&tmp](std::size_t number) { return tmp + "/said." + std::to_string(number); };
    int status = 1;
    while (!schedule.over()) {
        while (const auto number = schedule.start()) {
            const Command &command = plan.commands()[*number];
            const std::string text = command.preprocesses ? script(command, said(*number)) : script_on(free.back(), plan, command, said(*number));
            running[start({{"sh", "-c", text}, zigrunk::environment(), "/"})] = {*number, free.back()};
            free.pop_back();
        }
        if (const auto ended = running.find(waitpid(-1, nullptr, 0)); ended != running.end()) {
            schedule.ended(ended->second.first, status_of(said(ended->second.first)) == 0);
            free.push_back(ended->second.second);
            running.erase(ended);
        }
        while (const auto next = schedule.tell()) {
            print(said(*next) + ".output", std::cout);
            print(said(*next) + ".errors", std::cerr);
            status = status_of(said(*next));
        }
    }
    return status;
}

} // namespace

int main(int count, char **arguments) {
    const Texts all(arguments + 1, arguments + count);
    const auto end = std::find(all.begin(), all.end(), "--");
    if (end == all.begin() || end == all.end()) {
        std::cerr << "usage: scheduler WORKER.. -- WORD..\n";
        return 2;
    }
    const Texts workers(all.begin(), end), words(end + 1, all.end());
    std::string tmp = (std::filesystem::temp_directory_path() / "scheduler.XXXXXX").string();
    int status = mkdtemp(tmp.data()) ? 0 : 1;
    try {
        zigrunk::Call call("nvcc", words, zigrunk::environment(), std::filesystem::current_path().string(), tmp);
        const zigrunk::Plan plan = call.plan();
        const auto rule = call.dependencies();
        status = rule ? made(*rule) : 0;
        status = status != 0 ? status : run_plan(plan, workers, tmp);
    } catch (const zigrunk::Error &) { // nvcc makes the call itself
        zigrunk::Run run{{"nvcc"}, zigrunk::environment(), std::filesystem::current_path().string()};
        append(run.words, words);
        status = made(run);
    }
    std::error_code ignored;
    std::filesystem::remove_all(tmp, ignored);
    return status;
}
