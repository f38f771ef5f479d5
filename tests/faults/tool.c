// A stand-in for each tool of a call, for trials with faults. What it writes depends on what it reads, and ends in a mark. It refuses an input
// without the mark, because somebody wrote that in part only, and says so in the file PARTIAL of LOG's folder. As gcc, it includes cicc's stub file,
// and its assembler or a whole compile includes what fatbinary writes, which has the form of nvcc 13.
//
// PAUSE, or PAUSE_cicc for cicc, is how many milliseconds it takes between the halves of what it writes. BEFORE_cicc is how many it takes before it
// reads. SIZE is how many bytes more stand between the halves, none unless set. RAN, if set, is a file that gets a line with its name and phase.
// A tool that has the word DIES, if that is set, is killed before it reads.
#include <fcntl.h>
#include <signal.h>
#include <stdint.h>
#include <stdio.h>
#include <stdlib.h>
#include <string.h>
#include <sys/stat.h>
#include <time.h>
#include <unistd.h>

static const char mark[] = "END\n";
// By these texts the driver takes it for gcc.
const char *const of_gcc[] = {"Reading specs from ", "%{!E:%{!M:%{!MM:"};
// What fatbinary writes for the host compiler, before a number and behind it, and the end of what of it an assembler gets.
static const char fatbin_head[] =
    "#ifndef __SKIP_INTERNAL_FATBINARY_HEADERS\n#include \"fatbinary_section.h\"\n#endif\n"
    "#define __CUDAFATBINSECTION  \".nvFatBinSegment\"\n#define __CUDAFATBINDATASECTION  \".nv_fatbin\"\n"
    "asm(\n\".section .nv_fatbin, \\\"a\\\"\\n\"\n\".align 8\\n\"\n\"fatbinData:\\n\"\n\".quad 0x%016llx\\n\"\n";
static const char fatbin_tail[] =
    "\".text\\n\"\n);\n#ifdef __cplusplus\nextern \"C\" {\n#endif\nextern const unsigned long long fatbinData[1];\n#ifdef __cplusplus\n}\n#endif\n"
    "#ifdef __cplusplus\nextern \"C\" {\n#endif\n"
    "static const __fatBinC_Wrapper_t __fatDeviceText __attribute__ ((aligned (8))) __attribute__ ((section (__CUDAFATBINSECTION)))= \n"
    "\t{ 0x466243b1, 1, fatbinData, 0 };\n#ifdef __cplusplus\n}\n#endif\n";
static const char assembler_tail[] = ".text\n";
static const char letters[] = "ABCDEFGHIJKLMNOPQRSTUVWXYZabcdefghijklmnopqrstuvwxyz0123456789__";
static const char *outputs[8];
static int output_count;
static uint64_t sum = 14695981039346656037u;

static void add(const char *bytes, size_t count) {
    for (size_t at = 0; at < count; at++) {
        sum = (sum ^ (unsigned char)bytes[at]) * 1099511628211u;
    }
}

static const char *base(const char *path) {
    const char *slash = strrchr(path, '/');
    return slash ? slash + 1 : path;
}

static int ends_with(const char *text, size_t length, const char *end) {
    size_t size = strlen(end);
    return length >= size && memcmp(text + length - size, end, size) == 0;
}

static int has_end(const char *path, const char *end) {
    return ends_with(path, strlen(path), end);
}

// Notes an output that these two words of a tool name.
static void note_output(const char *word, const char *next, const char *tool) {
    static const char *options[] = {"-o", "--gen_c_file_name", "--gen_device_file_name"};
    static const char *joined[] = {"--create=", "--embedded-fatbin="};
    const char *found = NULL;
    for (int at = 0; at < 3; at++) {
        found = strcmp(word, options[at]) == 0 ? next : found;
    }
    for (int at = 0; at < 2; at++) {
        size_t length = strlen(joined[at]);
        found = strncmp(word, joined[at], length) == 0 ? word + length : found;
    }
    found = strcmp(tool, "cudafe++") == 0 && strcmp(word, "--module_id_file_name") == 0 ? next : found;
    found = strcmp(tool, "cicc") == 0 && strcmp(word, "--stub_file_name") == 0 ? next : found;
    if (found && output_count < 8) {
        outputs[output_count++] = found;
    }
}

static int is_output(const char *path) {
    for (int at = 0; at < output_count; at++) {
        if (strcmp(path, outputs[at]) == 0) {
            return 1;
        }
    }
    return 0;
}

// Whether a path is that of a file that a tool can't do without.
static int is_needed(const char *path) {
    static const char *ends[] = {".ii", ".ptx", ".cubin", ".cudafe1.cpp", ".cudafe1.stub.c", ".fatbin.c", "/late.s", "/fatbin.s"};
    for (int at = 0; at < 8; at++) {
        if (has_end(path, ends[at])) {
            return !is_output(path);
        }
    }
    return 0;
}

static void fail(void) {
    perror("tool");
    exit(4);
}

// Reads an input into the sum. A source that nobody made needs no mark.
static void read_input(const char *path) {
    struct stat status;
    if (is_needed(path) && stat(path, &status) != 0) {
        perror(path);
        exit(4);
    }
    if (is_output(path) || stat(path, &status) != 0 || !(S_ISREG(status.st_mode) || S_ISFIFO(status.st_mode))) {
        return;
    }
    // A file that comes late has no size before it can be opened, or none at all.
    FILE *file = fopen(path, "r");
    size_t size = 0, room = 0, more = 1;
    char *text = NULL;
    while (file && more > 0) {
        room = 2 * room + 4096;
        text = realloc(text, room);
        more = text ? fread(text + size, 1, room - size, file) : 0;
        size += more;
    }
    if (!file || !text || ferror(file)) {
        fail();
    }
    int is_made = !strstr(path, ".cu") || strstr(path, "cudafe");
    const char *end = has_end(path, ".fatbin.c") ? fatbin_tail : has_end(path, "/fatbin.s") ? assembler_tail : mark;
    if (is_made && !ends_with(text, size, end)) {
        char name[4096];
        snprintf(name, sizeof name, "%s.PARTIAL", getenv("LOG"));
        close(open(name, O_CREAT | O_WRONLY, 0666));
        exit(99);
    }
    add(text, size);
}

// Reads what gcc includes for a source, or for assembler text.
static void read_included(const char *path, int compiles_whole) {
    char name[4096];
    size_t folder = (size_t)(base(path) - path);
    if (has_end(path, ".cudafe1.cpp")) {
        snprintf(name, sizeof name, "%.*s.stub.c", (int)(strlen(path) - 4), path);
        read_input(name);
    }
    if (has_end(path, ".cudafe1.cpp") && compiles_whole) {
        snprintf(name, sizeof name, "%.*s.fatbin.c", (int)(folder + strcspn(path + folder, ".")), path);
        read_input(name);
    }
    if (has_end(path, "/late.s")) {
        snprintf(name, sizeof name, "%.*sfatbin.s", (int)folder, path);
        read_input(name);
    }
}

static int is_embedded_fatbin(const char *path) {
    return has_end(path, "fatbin.c");
}

static void remove_outputs(int number) {
    for (int at = 0; at < output_count; at++) {
        unlink(outputs[at]);
    }
    signal(number, SIG_DFL);
    raise(number);
}

// The variable that begins so and ends with this tool's name.
static const char *variable_of(const char *begin, const char *name) {
    char variable[64];
    snprintf(variable, sizeof variable, "%s_%s", begin, name);
    return getenv(variable);
}

static void wait_for(long milliseconds) {
    nanosleep(&(struct timespec){.tv_sec = milliseconds / 1000, .tv_nsec = milliseconds % 1000 * 1000000}, NULL);
}

static void note_run(const char *name, int count, char **words) {
    const char *ran = getenv("RAN"), *phase = "";
    for (int at = 1; at < count; at++) {
        phase = strlen(words[at]) == 2 && strchr("EcS", words[at][1]) && words[at][0] == '-' ? words[at] : phase;
    }
    int file = ran ? open(ran, O_CREAT | O_WRONLY | O_APPEND, 0666) : -1;
    if (file >= 0) {
        dprintf(file, "%s %s\n", name, phase);
        close(file);
    }
}

// As compilers do, it needs a folder for temporary files.
static void check_temporary(void) {
    struct stat status;
    const char *folder = getenv("TMPDIR");
    if (folder && (stat(folder, &status) != 0 || !S_ISDIR(status.st_mode))) {
        perror(folder);
        exit(5);
    }
}

int main(int count, char **words) {
    const char *name = base(words[0]);
    check_temporary();
    note_run(name, count, words);
    const char *before = variable_of("BEFORE", name);
    wait_for(before ? atol(before) : 0);
    int preprocesses = 0, compiles_whole = 0, is_gcc = strcmp(name, "gcc") == 0;
    const char *deadly = getenv("DIES");
    for (int at = 1; at < count && deadly; at++) {
        if (strcmp(words[at], deadly) == 0) {
            raise(SIGKILL);
        }
    }
    for (int at = 1; at < count; at++) {
        preprocesses |= strcmp(words[at], "-E") == 0;
        compiles_whole |= strcmp(words[at], "-c") == 0;
        note_output(words[at], at + 1 < count ? words[at + 1] : NULL, name);
    }
    if (is_gcc && signal(SIGTERM, SIG_IGN) != SIG_IGN) {
        signal(SIGTERM, remove_outputs);
        signal(SIGINT, remove_outputs);
        signal(SIGHUP, remove_outputs);
    }
    for (int at = 1; at < count; at++) {
        const char *inner = strstr(words[at], "file=");
        const char *path = inner ? inner + 5 : words[at];
        // (cudafe++ and cicc write names of later files into theirs)
        const char *last = words[at - 1];
        int is_name = strncmp(last, "--orig_src_", 11) == 0 || strcmp(last, "--stub_file_name") == 0 || strcmp(last, "--include_file_name") == 0;
        if (path[0] != '-') {
            // (a cicc that begins early has another name for the module id's file, and one whose stub file is read late another for that)
            int is_stub_of_cicc = strcmp(name, "cicc") == 0 && strcmp(last, "--stub_file_name") == 0;
            if (!is_stub_of_cicc && strcmp(last, "--module_id_file_name") != 0) {
                add(base(path), strlen(base(path)));
            }
            if (!is_name) {
                read_input(path);
            }
            if (is_gcc && !is_output(path)) {
                read_included(path, compiles_whole);
            }
        } else if (strncmp(path, "-D__CUDA_ARCH__", 15) == 0) {
            add(path, strlen(path));
        }
    }
    int files[8];
    char head[128];
    long more = getenv("SIZE") ? atol(getenv("SIZE")) : 0;
    char *filler = malloc((size_t)more + 1);
    if (!filler) {
        fail();
    }
    // letters that can't be packed, which depend on what was read
    unsigned long long state = sum;
    for (long at = 0; at < more; at++) {
        state = state * 6364136223846793005ULL + 1442695040888963407ULL;
        filler[at] = at + 1 < more ? letters[state >> 58] : '\n';
    }
    int length = snprintf(head, sizeof head, preprocesses ? "# 0 \"k.cu\"\n# 1 \"a.h\" 1\n%016llx\n" : "%016llx\n", (unsigned long long)sum);
    for (int at = 0; at < output_count; at++) {
        files[at] = open(outputs[at], O_WRONLY | O_CREAT | O_TRUNC, 0666);
        if (is_embedded_fatbin(outputs[at])) {
            if (files[at] < 0 || dprintf(files[at], fatbin_head, (unsigned long long)sum) < 0) {
                fail();
            }
        } else if (files[at] < 0 || write(files[at], head, (size_t)length) != length || write(files[at], filler, (size_t)more) != more) {
            fail();
        }
    }
    const char *own = variable_of("PAUSE", name), *given = own ? own : getenv("PAUSE");
    wait_for(given ? atol(given) : 20);
    for (int at = 0; at < output_count; at++) {
        const char *end = is_embedded_fatbin(outputs[at]) ? fatbin_tail : mark;
        if (write(files[at], end, strlen(end)) != (ssize_t)strlen(end) || close(files[at]) != 0) {
            fail();
        }
    }
    return 0;
}
