/* libzigrunk: what one nvcc call really runs, for C and C++.
 *
 * How to call
 *
 *   - A text is a pointer and its length in bytes; ZIGRUNK_ALL as the length means up to a NUL. A list of texts is pointers, their lengths
 *     and their number. Without lengths (NULL) each text ends with a NUL, and ZIGRUNK_ALL as the number means up to a NULL. So a list may be
 *     an argv or environ. What is all zero is empty.
 *   - What you pass is read during the call, and not kept.
 *   - A function that can fail returns ZIGRUNK_OK or another status. Its last parameters get what it made, if it succeeds, and else, unless
 *     that parameter is NULL, an error. What they get is yours: pass it to zigrunk_free. All that it has is valid until then.
 *   - Each text that you get has a NUL behind it, which its length doesn't count, and each list a NULL. So a list of words may be passed to
 *     execve.
 *   - The same input gives the same answer, unless an allocation fails (ZIGRUNK_OUT_OF_MEMORY), or what the call looks at has changed: the
 *     disk, or nvcc. A refused allocation aborts in one case: Rust's library copies a path of 384 to 4,095 bytes to open the file, or to look
 *     at it.
 *   - zigrunk_call_plan forks, and waits for the processes that it has started.
 *
 * What you have to ensure, since the library can't check it
 *
 *   - Pointers are valid for their sizes, and nobody writes what they point to meanwhile.
 *   - What you free isn't used any more. Threads may share calls and plans, and free them once; a schedule is for one thread at a time.
 *
 * Versions: names, numbers and records here don't change within libzigrunk.so.2. Numbers of new statuses may appear: treat an unknown one as a
 * refusal.
 *
 * cbindgen writes this file: see capi/. */


#ifndef ZIGRUNK_H
#define ZIGRUNK_H

#include <stddef.h>
#include <stdint.h>

#if defined(__GNUC__) || defined(__clang__)
#define ZIGRUNK_CHECK_RESULT __attribute__((warn_unused_result))
#else
#define ZIGRUNK_CHECK_RESULT
#endif

// As a length: up to a NUL. As the number of texts: up to a NULL. As a command: none.
#define ZIGRUNK_ALL SIZE_MAX

// A call whose line was read.
typedef struct zigrunk_call zigrunk_call;

// What one nvcc call runs.
typedef struct zigrunk_plan zigrunk_plan;

// Which command may start next, what a failure means, and which outputs may be printed. It starts no process.
typedef struct zigrunk_schedule zigrunk_schedule;

// What `zigrunk_abi_version` says.
#define ZIGRUNK_ABI_VERSION 2

// The function succeeded.
#define ZIGRUNK_OK 0

// An allocation failed.
#define ZIGRUNK_OUT_OF_MEMORY 1

// A text isn't UTF-8: a word, a path or a suffix.
#define ZIGRUNK_NOT_UTF8 2

// A number, or the name of a format, has no meaning.
#define ZIGRUNK_BAD_NUMBER 3

// A text ends inside quotes or in a backslash.
#define ZIGRUNK_OPEN_QUOTE 4

// A line of a dry run can't be read.
#define ZIGRUNK_BAD_DRY_RUN 5

// A program that a dry run names isn't there.
#define ZIGRUNK_NOT_FOUND 6

// Your suffixes and the standard ones break the rule of such a list.
#define ZIGRUNK_BAD_SUFFIXES 7

// The format can't represent the plan.
#define ZIGRUNK_UNWRITABLE 8

// A line of a tool can't be read, or isn't to be cached.
#define ZIGRUNK_BAD_LINE 9

// nvcc has to make the call itself.
#define ZIGRUNK_TO_NVCC 10

// A line of a dry run exceeds your limit.
#define ZIGRUNK_OVER_LIMIT 11

// The texts aren't the dry runs of the call.
#define ZIGRUNK_NO_DRY_RUN 12

// A directory isn't absolute and plain: a part of its path is empty, "." or "..".
#define ZIGRUNK_ODD_DIRECTORY 13

// nvcc refuses a dry run: the message is what it printed.
#define ZIGRUNK_NVCC 14

// A dry run can't be started, or a file can't be read.
#define ZIGRUNK_IO 15

// The first dry run is at fault.
#define ZIGRUNK_INPUT_FIRST 1

// The second.
#define ZIGRUNK_INPUT_SECOND 2

// The working directory.
#define ZIGRUNK_INPUT_CWD 3

// The directory for temporary files.
#define ZIGRUNK_INPUT_TMP 4

// The option that says what nvcc makes.
#define ZIGRUNK_INPUT_FLAG 5

// The dry run of the line as it is.
#define ZIGRUNK_INPUT_OWN 6

// The environment.
#define ZIGRUNK_INPUT_VARIABLES 7

// The suffixes of generated files.
#define ZIGRUNK_INPUT_SUFFIXES 8

// nvcc's name or path.
#define ZIGRUNK_INPUT_NVCC 9

// The words of the line.
#define ZIGRUNK_INPUT_WORDS 10



// C.
#define ZIGRUNK_LANGUAGE_C 0

// C++.
#define ZIGRUNK_LANGUAGE_CXX 1

// Objective-C.
#define ZIGRUNK_LANGUAGE_OBJC 2

// Objective-C++.
#define ZIGRUNK_LANGUAGE_OBJCXX 3

// CUDA.
#define ZIGRUNK_LANGUAGE_CUDA 4

// What cudafe++ makes.
#define ZIGRUNK_LANGUAGE_CUDAFE 5

// PTX, which cicc makes.
#define ZIGRUNK_LANGUAGE_PTX 6

// A cubin, which ptxas makes.
#define ZIGRUNK_LANGUAGE_CUBIN 7

// The compiler doesn't colour its messages.
#define ZIGRUNK_COLOR_OFF 0

// It does.
#define ZIGRUNK_COLOR_ON 1

// It decides.
#define ZIGRUNK_COLOR_AUTO 2

// cicc, which compiles device code to PTX.
#define ZIGRUNK_TOOL_CICC 0

// ptxas, the assembler.
#define ZIGRUNK_TOOL_PTXAS 1

// cudafe++, the front end for host code.
#define ZIGRUNK_TOOL_CUDAFE 2

// nvcc. Of a line only.
#define ZIGRUNK_TOOL_NVCC 3

// nvc of nvhpc. Of a line only.
#define ZIGRUNK_TOOL_NVC 4

// nvc++ of nvhpc. Of a line only.
#define ZIGRUNK_TOOL_NVCXX 5

// fatbinary, which packs device code. This and the others: of a command only.
#define ZIGRUNK_TOOL_FATBINARY 6

// nvlink, which links device code.
#define ZIGRUNK_TOOL_NVLINK 7

// A host compiler, or any other program; also of a command that was dropped.
#define ZIGRUNK_TOOL_HOST 8

// The first group: the preprocessor for the host, and cudafe++.
#define ZIGRUNK_FRONT 0

// One for each architecture: its preprocessor, cicc and ptxas.
#define ZIGRUNK_DEVICE 1

// The last: fatbinary, and the host compiler.
#define ZIGRUNK_FINAL 2

// The plan hasn't dropped the command: it is in a group.
#define ZIGRUNK_IN_GROUP 0

// None of nvcc's tools, and without a CUDA macro.
#define ZIGRUNK_NOT_CUDA 1

// A cicc command whose input no preprocess step before it makes.
#define ZIGRUNK_NO_CICC_GROUP 2

// A ptxas command whose input no cicc command of a device group makes.
#define ZIGRUNK_NO_PTXAS_GROUP 3

// Of a device group that a later preprocess step opened again.
#define ZIGRUNK_SUPERSEDED 4

// The words name all files.
#define ZIGRUNK_NONE_MISSING 0

// The line can't be read, so nothing is known.
#define ZIGRUNK_UNREAD_MISSING 1

// The command preprocesses, so it also reads headers.
#define ZIGRUNK_HEADERS_MISSING 2

// It also reads what its input includes, and libraries.
#define ZIGRUNK_INPUTS_MISSING 3

// gcc, and clang too.
#define ZIGRUNK_GCC 0

// cl of Microsoft.
#define ZIGRUNK_MSVC 1

// nvc and nvc++.
#define ZIGRUNK_NVHPC 2

// After a failure nothing starts.
#define ZIGRUNK_START_NOTHING 0

// Only commands before it: then you print what nvcc prints, up to the first failure.
#define ZIGRUNK_START_EARLIER 1

// Each command whose needs have all succeeded.
#define ZIGRUNK_GO_ON 2

// A command has succeeded.
#define ZIGRUNK_SUCCEEDED 0

// It has failed.
#define ZIGRUNK_FAILED 1

// You ended it: it holds others back as a failure does, but its output isn't printed.
#define ZIGRUNK_CANCELLED 2

// Not all of a plan may be printed yet.
#define ZIGRUNK_UNFINISHED 0

// Each command succeeded.
#define ZIGRUNK_ALL_SUCCEEDED 1

// The last command that may be printed failed, and nothing is printed after it.
#define ZIGRUNK_ONE_FAILED 2

// No command has this number.
#define ZIGRUNK_NO_SUCH_COMMAND 1

// The command doesn't run, so it can't have ended.
#define ZIGRUNK_NOT_RUNNING 2

// An outcome or an end has no meaning.
#define ZIGRUNK_NO_OUTCOME 3

// A text.
typedef struct zigrunk_text {
    // Its bytes.
    const char *bytes;
    // How many there are.
    size_t length;
} zigrunk_text;

// A list of texts.
typedef struct zigrunk_texts {
    // The texts.
    const char *const *items;
    // Their lengths.
    const size_t *lengths;
    // How many there are.
    size_t count;
} zigrunk_texts;

// A call of nvcc.
typedef struct zigrunk_nvcc_call {
    // nvcc's path or name.
    struct zigrunk_text nvcc;
    // The words behind it.
    struct zigrunk_texts words;
    // All of the environment, as environ: nvcc reads `NVCC_PREPEND_FLAGS` and `NVCC_APPEND_FLAGS` there, and
    // the commands run in it.
    struct zigrunk_texts environment;
    // The working directory, an absolute path.
    struct zigrunk_text cwd;
    // The directory for temporary files, an absolute path. It has to be there.
    struct zigrunk_text tmp;
} zigrunk_nvcc_call;

// What `zigrunk_free` needs. Leave it alone.
typedef struct zigrunk_made {
    // Frees it.
    void (*free)(void*);
} zigrunk_made;

// Why a function refuses.
typedef struct zigrunk_error {
    // For `zigrunk_free`.
    struct zigrunk_made made;
    // `ZIGRUNK_OUT_OF_MEMORY` ..
    int32_t status;
    // The input that is at fault, or 0.
    uint32_t input;
    // The line of a dry run that is at fault, from 1, or 0.
    size_t line;
    // Why, for people.
    struct zigrunk_text message;
} zigrunk_error;

// A program to run, without a shell.
typedef struct zigrunk_run {
    // Its name or path, then its words; none if there is nothing to run.
    struct zigrunk_texts words;
    // Its whole environment, as `NAME=VALUE`.
    struct zigrunk_texts environment;
    // The directory that it runs in.
    struct zigrunk_text cwd;
} zigrunk_run;

// What a line of nvcc says.
typedef struct zigrunk_outline {
    // The dry run of the line as it is.
    struct zigrunk_run own_dry_run;
    // The first that is planned.
    struct zigrunk_run first_dry_run;
    // The second.
    struct zigrunk_run second_dry_run;
    // What writes the dependency file, if the line asks for one. It's no command of the plan.
    struct zigrunk_run dependencies;
    // The option that says what nvcc makes, as "-c".
    struct zigrunk_text flag;
    // The directory that keeps generated files, or NULL.
    struct zigrunk_text keep_dir;
    // The source's path, as the dry runs have it.
    struct zigrunk_text input;
    // What the call makes: the product, and the dependency file if there is one.
    struct zigrunk_texts outputs;
    // How many commands may run at once, or 0 if nothing says it.
    size_t jobs;
} zigrunk_outline;

// What you found for a program that a dry run names, and the value of PATH there.
typedef struct zigrunk_found_program {
    // The program, as the dry run names it.
    struct zigrunk_text program;
    // The value of PATH.
    struct zigrunk_text path;
    // The program's path, or NULL or an empty text if there is no such program.
    struct zigrunk_text found;
} zigrunk_found_program;

// What the dry runs of a call printed to standard error: any bytes.
typedef struct zigrunk_dry_runs {
    // Of the line as it is, which says what nvcc does for the line.
    struct zigrunk_text own;
    // Of the first that is planned.
    struct zigrunk_text first;
    // Of the second.
    struct zigrunk_text second;
    // Where the programs are that they name. NULL looks for them on this machine's disk.
    const struct zigrunk_found_program *programs;
    // How many there are.
    size_t programs_count;
    // How many bytes of text reading each dry run may make, or 0. Give a limit if someone else wrote them:
    // 350 bytes of variables that refer to each other can turn into gigabytes.
    size_t limit;
} zigrunk_dry_runs;

// A line of a tool.
typedef struct zigrunk_line_call {
    // The working directory, an absolute path.
    struct zigrunk_text cwd;
    // The line's words without the tool's name.
    struct zigrunk_texts words;
    // nvcc reads `NVCC_PREPEND_FLAGS` and `NVCC_APPEND_FLAGS` there; the others read none.
    struct zigrunk_texts environment;
    // `ZIGRUNK_TOOL_CICC` .. `ZIGRUNK_TOOL_NVCXX`
    uint32_t tool;
} zigrunk_line_call;

// What a line of a tool says. Words are in the order of the line.
typedef struct zigrunk_line {
    // For `zigrunk_free`.
    struct zigrunk_made made;
    // The path of its input, or NULL.
    struct zigrunk_text input;
    // The option that says what it makes.
    struct zigrunk_text compilation_flag;
    // What each output is, as "obj".
    struct zigrunk_texts output_keys;
    // The paths of its outputs.
    struct zigrunk_texts output_paths;
    // For each output 1 if the command may leave it out, else 0.
    const size_t *output_is_optional;
    // The words for the dependency file.
    struct zigrunk_texts dependency_args;
    // Those for the preprocessor.
    struct zigrunk_texts preprocessor_args;
    // Those that are part of a cache key.
    struct zigrunk_texts common_args;
    // Those that name architectures, part of a cache key too.
    struct zigrunk_texts arch_args;
    // Those that are no part of one.
    struct zigrunk_texts unhashed_args;
    // Paths of files that a distributed compilation also needs.
    struct zigrunk_texts extra_dist_files;
    // Paths of files whose contents are part of a cache key.
    struct zigrunk_texts extra_hash_files;
    // `ZIGRUNK_LANGUAGE_C` ..
    uint32_t language;
    // `ZIGRUNK_COLOR_OFF` ..
    uint32_t color_mode;
    // 1 if the input comes after `--`, else 0.
    uint32_t double_dash_input;
} zigrunk_line;

// Some texts.
typedef struct zigrunk_answer {
    // For `zigrunk_free`.
    struct zigrunk_made made;
    // The texts.
    struct zigrunk_texts texts;
} zigrunk_answer;

// A command whose key a cache asks for. Its texts may be any bytes but NUL.
typedef struct zigrunk_key_call {
    // The program, then its words.
    struct zigrunk_texts words;
    // Its environment, as environ. Of a name that occurs twice, the last value counts.
    struct zigrunk_texts environment;
    // Directories whose paths don't count, absolute and without `/` at the end; at most 26.
    struct zigrunk_texts roots;
    // `ZIGRUNK_TOOL_CICC` ..
    uint32_t tool;
} zigrunk_key_call;

// Two dry runs without a line.
typedef struct zigrunk_plan_call {
    // Standard error of the call with `--dryrun --keep`; any bytes.
    struct zigrunk_text dry1;
    // The same with `--keep-dir TMP --dryrun --keep`.
    struct zigrunk_text dry2;
    // The working directory: an absolute path without an empty part, "." or "..".
    struct zigrunk_text cwd;
    // TMP, the temporary directory: such a path too.
    struct zigrunk_text tmp;
    // The option that says what nvcc makes, as "-c"; empty if it links.
    struct zigrunk_text flag;
    // The call's environment, as environ.
    struct zigrunk_texts environment;
    // Suffixes of generated files, behind the standard ones.
    struct zigrunk_texts suffixes;
    // Where the programs are that the dry runs name; the first row of a look-up counts. NULL looks for them
    // on this machine's disk.
    const struct zigrunk_found_program *programs;
    // How many there are.
    size_t programs_count;
    // How many bytes of text reading each dry run may make, or 0: see `zigrunk_dry_runs`.
    size_t limit;
    // `ZIGRUNK_GCC` ..
    uint32_t host_compiler;
    // 1 if generated files keep nvcc's names, 0 if they get canonical ones.
    uint32_t keeps_names;
} zigrunk_plan_call;

// A command of a plan, or one that the plan dropped: of that only its words, its place and the reason say
// something.
typedef struct zigrunk_command {
    // The program's path, then its words.
    struct zigrunk_texts words;
    // Its environment, as `NAME=VALUE`. A name may occur twice: the last one counts.
    struct zigrunk_texts environment;
    // The directory that it runs in.
    struct zigrunk_text cwd;
    // The paths of the files that it reads by its words: see `missing`.
    struct zigrunk_texts reads;
    // Those that it writes.
    struct zigrunk_texts writes;
    // Those that it may write or leave out.
    struct zigrunk_texts may_write;
    // Such as `compute_80` or `sm_80`; those of a preprocessor are those of the cicc commands that read what
    // it writes.
    struct zigrunk_texts targets;
    // The numbers of the commands that have to end before it starts, ascending.
    const size_t *needs;
    // How many there are.
    size_t needs_count;
    // The number of its group, from 0; `ZIGRUNK_ALL` if it was dropped.
    size_t group;
    // The dry run that it is of: 1 or 2.
    size_t dry_run;
    // Its line there, from 1.
    size_t line;
    // `ZIGRUNK_FRONT` ..
    uint32_t stage;
    // `ZIGRUNK_TOOL_CICC` ..
    uint32_t tool;
    // `ZIGRUNK_NONE_MISSING` ..
    uint32_t missing;
    // `ZIGRUNK_IN_GROUP`, or why the plan dropped it.
    uint32_t reason;
    // 1 if its outputs may come from a cache, else 0.
    uint32_t is_cacheable;
    // 1 if it only preprocesses, else 0.
    uint32_t preprocesses;
} zigrunk_command;

// The commands of a plan.
typedef struct zigrunk_commands {
    // Those of its groups in order, then those that it dropped.
    const struct zigrunk_command *items;
    // How many there are.
    size_t count;
    // How many of them it dropped.
    size_t dropped;
    // How many groups it has.
    size_t groups;
} zigrunk_commands;

// A command of a schedule that is of no plan.
typedef struct zigrunk_scheduled_command {
    // The numbers of the commands that have to succeed before it starts, all smaller than its own.
    const size_t *needs;
    // How many there are.
    size_t needs_count;
    // Of those that may start, the one with the greatest priority is next, and of equal ones the first.
    size_t priority;
} zigrunk_scheduled_command;

// What to run: the commands of plans, the numbers of each behind those of the plans before it, or other
// commands.
typedef struct zigrunk_schedule_call {
    // Plans that touch different files.
    const zigrunk_plan *const *plans;
    // How many there are.
    size_t plans_count;
    // If there is no plan: commands.
    const struct zigrunk_scheduled_command *commands;
    // How many there are.
    size_t commands_count;
    // How many commands may run at once, at least 1.
    size_t slots;
    // `ZIGRUNK_START_NOTHING` ..
    uint32_t after_failure;
} zigrunk_schedule_call;

// How far a schedule is.
typedef struct zigrunk_progress {
    // How many commands run.
    size_t running;
    // The outputs of the commands from the first that you asked for up to this one, which isn't one of them,
    // may be printed.
    size_t told;
    // `ZIGRUNK_UNFINISHED` ..
    uint32_t status;
    // 1 if nothing runs and nothing may start, else 0.
    uint32_t is_over;
} zigrunk_progress;

#ifdef __cplusplus
extern "C" {
#endif // __cplusplus

// The number of the library's binary interface: `ZIGRUNK_ABI_VERSION` of the header that it was built with.
uint32_t zigrunk_abi_version(void);

// The library's version, such as "0.2.0".
const char *zigrunk_version(void);

// Reads the line of a call. `ZIGRUNK_TO_NVCC` if nvcc has to make the call itself: the message has the
// reason.
ZIGRUNK_CHECK_RESULT
int32_t zigrunk_call_of(const struct zigrunk_nvcc_call *given,
                        zigrunk_call **made,
                        struct zigrunk_error **error);

// What the line of a call says. It is freed with the call.
const struct zigrunk_outline *zigrunk_call_outline(const zigrunk_call *call);

// Runs nvcc's dry runs, looks on the disk for the programs that they name, and plans.
ZIGRUNK_CHECK_RESULT
int32_t zigrunk_call_plan(const zigrunk_call *call,
                          zigrunk_plan **made,
                          struct zigrunk_error **error);

// Plans what the dry runs of a call printed, here or elsewhere. `ZIGRUNK_NO_DRY_RUN`, and the input that is
// at fault, if the texts aren't the dry runs of this call; `ZIGRUNK_TO_NVCC` if nvcc does something else for
// the line, or a command reads what no command before it writes.
ZIGRUNK_CHECK_RESULT
int32_t zigrunk_call_plan_of(const zigrunk_call *call,
                             const struct zigrunk_dry_runs *given,
                             zigrunk_plan **made,
                             struct zigrunk_error **error);

// Reads a line of a tool: its input, its outputs, and its words by what they are for. `ZIGRUNK_BAD_LINE` if
// it compiles nothing or no cache can serve it.
ZIGRUNK_CHECK_RESULT
int32_t zigrunk_line_records(const struct zigrunk_line_call *given,
                             struct zigrunk_line **made,
                             struct zigrunk_error **error);

// Reads a line of a tool, and lists the words that it is written back as.
ZIGRUNK_CHECK_RESULT
int32_t zigrunk_line_words(const struct zigrunk_line_call *given,
                           struct zigrunk_answer **made,
                           struct zigrunk_error **error);

// What a cache hashes of a command together with the contents of its files and whatever tells one version of
// its tool from another: its words and the variables that may change what it makes, with a mark in place of
// each root. `ZIGRUNK_BAD_NUMBER` for more than 26 roots, `ZIGRUNK_BAD_LINE` for a NUL.
ZIGRUNK_CHECK_RESULT
int32_t zigrunk_command_key(const struct zigrunk_key_call *given,
                            struct zigrunk_answer **made,
                            struct zigrunk_error **error);

// Frees a thing that a function has made. Nothing happens to NULL.
void zigrunk_free(void *thing);

// Plans two dry runs alone.
ZIGRUNK_CHECK_RESULT
int32_t zigrunk_plan_of(const struct zigrunk_plan_call *given,
                        zigrunk_plan **made,
                        struct zigrunk_error **error);

// The commands of a plan. They are freed with it.
const struct zigrunk_commands *zigrunk_plan_commands(const zigrunk_plan *plan);

// The plan as a text: as "json", "ninja", "shell", "compdb" or "text". `ZIGRUNK_BAD_NUMBER` for another
// format, `ZIGRUNK_UNWRITABLE` if the format can't represent the plan.
ZIGRUNK_CHECK_RESULT
int32_t zigrunk_plan_text(const zigrunk_plan *plan,
                          struct zigrunk_text format,
                          struct zigrunk_answer **made,
                          struct zigrunk_error **error);

// What a cache hashes of a command of a plan, by its number: the first text, then the contents of the files
// that the others name, which tell one version of its tool from another, and of what it reads. Two commands
// for which all that is equal make files of equal contents, in whatever directories they run; two exceptions
// are in the manual. `ZIGRUNK_BAD_LINE` if a cache may not serve the command: the message says why. So ask
// when the commands that it needs have ended.
ZIGRUNK_CHECK_RESULT
int32_t zigrunk_plan_key(const zigrunk_plan *plan,
                         size_t command,
                         struct zigrunk_answer **made,
                         struct zigrunk_error **error);

// A schedule of commands of which none has started. `ZIGRUNK_BAD_NUMBER` if there are no slots, a command
// needs one that isn't before it, or a number has no meaning.
ZIGRUNK_CHECK_RESULT
int32_t zigrunk_schedule_of(const struct zigrunk_schedule_call *given,
                            zigrunk_schedule **made,
                            struct zigrunk_error **error);

// The command to start now, which the schedule notes as started, or `ZIGRUNK_ALL` if none may start: call it
// until it says so.
size_t zigrunk_schedule_start(zigrunk_schedule *schedule);

// Notes how a command ended: `ZIGRUNK_SUCCEEDED` .. 0, or `ZIGRUNK_NO_SUCH_COMMAND` .., and the schedule is
// unchanged.
int32_t zigrunk_schedule_ended(zigrunk_schedule *schedule, size_t command, uint32_t outcome);

// How far a schedule is, and which outputs of the commands from `first` up to `end`, which isn't one of
// them, may be printed: those of one plan, or of what hasn't been printed of it.
struct zigrunk_progress zigrunk_schedule_progress(const zigrunk_schedule *schedule, size_t first, size_t end);

// Splits a text into the words that a POSIX shell reads: quotes and backslashes group characters, and
// nothing is expanded. `ZIGRUNK_OPEN_QUOTE` if it ends inside quotes or in a backslash.
ZIGRUNK_CHECK_RESULT
int32_t zigrunk_split(struct zigrunk_text text,
                      struct zigrunk_answer **made,
                      struct zigrunk_error **error);

// Writes words as one text, which a POSIX shell and `zigrunk_split` read as these words.
ZIGRUNK_CHECK_RESULT
int32_t zigrunk_quote(struct zigrunk_texts words,
                      struct zigrunk_answer **made,
                      struct zigrunk_error **error);

// Lists words with canonical names for the files that nvcc generates: as many words, in their order. Pass
// the words of all commands of a dry run, one command behind the other. The suffixes are behind the standard
// ones.
ZIGRUNK_CHECK_RESULT
int32_t zigrunk_remap(struct zigrunk_texts words,
                      struct zigrunk_texts suffixes,
                      struct zigrunk_answer **made,
                      struct zigrunk_error **error);

// Lists the look-ups of programs that a plan of two dry runs needs, none twice: a program, then the value of
// PATH there, and so on. The limit is that of `zigrunk_dry_runs`.
ZIGRUNK_CHECK_RESULT
int32_t zigrunk_lookups(struct zigrunk_text dry1,
                        struct zigrunk_text dry2,
                        struct zigrunk_text cwd,
                        size_t limit,
                        struct zigrunk_answer **made,
                        struct zigrunk_error **error);

// Lists the paths that a look-up tries from a working directory, in order: the first that is an executable
// file is the program.
ZIGRUNK_CHECK_RESULT
int32_t zigrunk_candidates(struct zigrunk_text program,
                           struct zigrunk_text path,
                           struct zigrunk_text cwd,
                           struct zigrunk_answer **made,
                           struct zigrunk_error **error);

// Lists the files that the output of a preprocessor names, none twice.
ZIGRUNK_CHECK_RESULT
int32_t zigrunk_headers(struct zigrunk_text output,
                        struct zigrunk_answer **made,
                        struct zigrunk_error **error);

#ifdef __cplusplus
} // extern "C"
#endif // __cplusplus

#endif /* ZIGRUNK_H */
