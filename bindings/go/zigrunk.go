// Package zigrunk says what one nvcc call really runs, over libzigrunk, which pkg-config has to find.
//
// A Call is an nvcc line, its environment, and where it is made. Its Plan runs nvcc's dry runs, finds the programs that they name, and gives the
// commands. Goroutines may share calls and plans; a schedule is for one at a time. Texts may be any bytes.
package zigrunk

// #cgo pkg-config: zigrunk
// #include <stdlib.h>
// #include <zigrunk.h>
import "C"

import "runtime"
import "unsafe"

// Status says why a call is refused.
type Status int

// The statuses of zigrunk.h. After ToNvcc, nvcc has to make the call itself.
const (
	OutOfMemory  Status = C.ZIGRUNK_OUT_OF_MEMORY
	NotUTF8      Status = C.ZIGRUNK_NOT_UTF8
	BadNumber    Status = C.ZIGRUNK_BAD_NUMBER
	OpenQuote    Status = C.ZIGRUNK_OPEN_QUOTE
	BadDryRun    Status = C.ZIGRUNK_BAD_DRY_RUN
	NotFound     Status = C.ZIGRUNK_NOT_FOUND
	BadSuffixes  Status = C.ZIGRUNK_BAD_SUFFIXES
	Unwritable   Status = C.ZIGRUNK_UNWRITABLE
	BadLine      Status = C.ZIGRUNK_BAD_LINE
	ToNvcc       Status = C.ZIGRUNK_TO_NVCC
	OverLimit    Status = C.ZIGRUNK_OVER_LIMIT
	NoDryRun     Status = C.ZIGRUNK_NO_DRY_RUN
	OddDirectory Status = C.ZIGRUNK_ODD_DIRECTORY
	ByNvcc       Status = C.ZIGRUNK_NVCC
	IO           Status = C.ZIGRUNK_IO
)

// Tool is the tool that a command runs, or that a line is of.
type Tool uint32

// The tools. Host is a host compiler, or any other program. Nvcc, Nvc and Nvcxx are of lines only.
const (
	Cicc      Tool = C.ZIGRUNK_TOOL_CICC
	Ptxas     Tool = C.ZIGRUNK_TOOL_PTXAS
	CudaFe    Tool = C.ZIGRUNK_TOOL_CUDAFE
	Fatbinary Tool = C.ZIGRUNK_TOOL_FATBINARY
	NvLink    Tool = C.ZIGRUNK_TOOL_NVLINK
	Host      Tool = C.ZIGRUNK_TOOL_HOST
	Nvcc      Tool = C.ZIGRUNK_TOOL_NVCC
	Nvc       Tool = C.ZIGRUNK_TOOL_NVC
	Nvcxx     Tool = C.ZIGRUNK_TOOL_NVCXX
)

// Missing says which files a command touches that its words don't name.
type Missing uint32

// NoneMissing: there are none. UnreadMissing: its line can't be read, so nothing is known. HeadersMissing: it preprocesses, so it also reads
// headers. InputsMissing: it also reads what its input includes, and libraries.
const (
	NoneMissing    Missing = C.ZIGRUNK_NONE_MISSING
	UnreadMissing  Missing = C.ZIGRUNK_UNREAD_MISSING
	HeadersMissing Missing = C.ZIGRUNK_HEADERS_MISSING
	InputsMissing  Missing = C.ZIGRUNK_INPUTS_MISSING
)

// Error says why a call is refused. Input is ZIGRUNK_INPUT_FIRST .. of zigrunk.h, or 0, and Line that of a dry run, from 1, or 0.
type Error struct {
	Status  Status
	Input   uint32
	Line    int
	Message string
}

func (e *Error) Error() string { return e.Message }

// Run is a program to run without a shell: its name or path and its words, all of its environment as NAME=VALUE, and its directory.
type Run struct {
	Words, Environment []string
	Directory          string
}

// Command is a command of a plan.
type Command struct {
	Run
	// Reads, Writes and MayWrite are the paths of the files that it reads by its words (see Missing), writes, and may write or leave out. Targets are
	// names such as compute_80 or sm_80; those of a preprocessor are those of the cicc commands that read what it writes.
	Reads, Writes, MayWrite, Targets []string
	// Needs are the numbers of the commands that have to end before it starts, ascending.
	Needs []int
	// Group is the number of its group, DryRun the dry run that it is of, 1 or 2, and Line its line there, from 1.
	Group, DryRun, Line int
	Tool                Tool
	Missing             Missing
	// Stage is ZIGRUNK_FRONT .. of zigrunk.h, and Reason why the plan dropped the command (ZIGRUNK_NOT_CUDA ..), or 0.
	Stage, Reason uint32
	// Cacheable says whether its outputs may come from a cache, Preprocesses whether it only preprocesses.
	Cacheable, Preprocesses bool
}

// given is memory of C for what one function is passed, and where that puts what it makes, and why it refuses.
type given struct {
	memory   []unsafe.Pointer
	keeps    *owned // what it is passed that is freed once nobody uses it
	why      *C.zigrunk_error
	answer   *C.zigrunk_answer
	call     *C.zigrunk_call
	plan     *C.zigrunk_plan
	schedule *C.zigrunk_schedule
	line     *C.zigrunk_line
}

// copied is a copy in memory of C, as far as Go's rules for pointers ask for it.
func copied[Of any](g *given, all []Of) *Of {
	room := C.malloc(C.size_t(len(all)+1) * C.size_t(unsafe.Sizeof(*new(Of))))
	g.memory = append(g.memory, room)
	copy(unsafe.Slice((*Of)(room), len(all)), all)
	return (*Of)(room)
}

func (g *given) text(of string) C.zigrunk_text {
	return C.zigrunk_text{(*C.char)(unsafe.Pointer(copied(g, []byte(of)))), C.size_t(len(of))}
}

func (g *given) texts(of []string) C.zigrunk_texts {
	items, lengths := make([]*C.char, len(of)), make([]C.size_t, len(of))
	for i, it := range of {
		items[i], lengths[i] = g.text(it).bytes, C.size_t(len(it))
	}
	return C.zigrunk_texts{copied(g, items), copied(g, lengths), C.size_t(len(of))}
}

// ended frees what a function was passed, and says why it refuses.
func (g *given) ended(status C.int32_t) error {
	for _, it := range g.memory {
		C.free(it)
	}
	if status == C.ZIGRUNK_OK {
		return nil
	}
	defer C.zigrunk_free(unsafe.Pointer(g.why))
	return &Error{Status(status), uint32(g.why.input), int(g.why.line), text(g.why.message)}
}

// answered are the texts that a function makes.
func (g *given) answered(status C.int32_t) ([]string, error) {
	if err := g.ended(status); err != nil {
		return nil, err
	}
	defer C.zigrunk_free(unsafe.Pointer(g.answer))
	return texts(g.answer.texts), nil
}

// owned is what a function has made, which is freed once nobody uses it.
type owned struct{ pointer unsafe.Pointer }

func own(made unsafe.Pointer) *owned {
	it := &owned{made}
	runtime.SetFinalizer(it, func(it *owned) { C.zigrunk_free(it.pointer) })
	return it
}

func text(of C.zigrunk_text) string {
	return string(unsafe.Slice((*byte)(unsafe.Pointer(of.bytes)), of.length))
}

func texts(of C.zigrunk_texts) []string {
	made := make([]string, of.count)
	for i, item := range unsafe.Slice(of.items, of.count) {
		made[i] = text(C.zigrunk_text{item, unsafe.Slice(of.lengths, of.count)[i]})
	}
	return made
}

// Lookup is a program that dry runs name, and the value of PATH there.
type Lookup struct{ Program, Path string }

// FoundProgram is a look-up, and the path that it found, or an empty one if there is no such program.
type FoundProgram struct {
	Lookup
	Found string
}

// programs is a table of programs for C: nil looks on this machine's disk.
func (g *given) programs(of []FoundProgram) (*C.zigrunk_found_program, C.size_t) {
	if of == nil {
		return nil, 0
	}
	rows := []C.zigrunk_found_program{}
	for _, it := range of {
		rows = append(rows, C.zigrunk_found_program{g.text(it.Program), g.text(it.Path), g.text(it.Found)})
	}
	return copied(g, rows), C.size_t(len(rows))
}

func run(of C.zigrunk_run) Run { return Run{texts(of.words), texts(of.environment), text(of.cwd)} }

// Call is a call of nvcc.
type Call struct {
	// DryRuns are that of the line as it is, and the two that are planned. Plan runs what it needs of them; to run them elsewhere, pass what they
	// print to standard error to PlanOf.
	DryRuns [3]Run
	// Dependencies is what writes the dependency file. It's no command of the plan, and has no words if the line asks for no such file.
	Dependencies Run
	// Flag is the option that says what nvcc makes, Input the source's path, as the dry runs have it, and KeepDir the directory that keeps
	// generated files, or empty.
	Flag, Input, KeepDir string
	// Outputs are what the call makes: the product, and the dependency file if there is one.
	Outputs []string
	// Jobs is how many commands may run at once, or 0 if nothing says it.
	Jobs int
	call *owned
}

// NewCall reads a line of nvcc: its words without nvcc's name, all of its environment, as os.Environ gives it, its directory, and one for
// temporary files, which has to be there. nvcc reads NVCC_PREPEND_FLAGS and NVCC_APPEND_FLAGS in the environment, and the commands run in it.
func NewCall(nvcc string, words, environment []string, directory, tmp string) (*Call, error) {
	var g given
	line := C.zigrunk_nvcc_call{g.text(nvcc), g.texts(words), g.texts(environment), g.text(directory), g.text(tmp)}
	if err := g.ended(C.zigrunk_call_of(&line, &g.call, &g.why)); err != nil {
		return nil, err
	}
	of := C.zigrunk_call_outline(g.call)
	runs := [3]Run{run(of.own_dry_run), run(of.first_dry_run), run(of.second_dry_run)}
	return &Call{runs, run(of.dependencies), text(of.flag), text(of.input), text(of.keep_dir), texts(of.outputs), int(of.jobs),
		own(unsafe.Pointer(g.call))}, nil
}

// Plan is what one nvcc call runs: the commands of its groups in order, and those that it dropped.
type Plan struct {
	Commands, Dropped []Command
	plan              *owned
}

func (g *given) planned(status C.int32_t) (*Plan, error) {
	if err := g.ended(status); err != nil {
		return nil, err
	}
	all := C.zigrunk_plan_commands(g.plan)
	commands := make([]Command, all.count)
	for i, of := range unsafe.Slice(all.items, all.count) {
		// (C's size_t is as wide as int)
		needs := append([]int{}, unsafe.Slice((*int)(unsafe.Pointer(of.needs)), of.needs_count)...)
		commands[i] = Command{
			Run: Run{texts(of.words), texts(of.environment), text(of.cwd)}, Reads: texts(of.reads), Writes: texts(of.writes),
			MayWrite: texts(of.may_write), Targets: texts(of.targets), Needs: needs, Group: int(of.group), DryRun: int(of.dry_run),
			Line: int(of.line), Tool: Tool(of.tool), Missing: Missing(of.missing), Stage: uint32(of.stage), Reason: uint32(of.reason),
			Cacheable: of.is_cacheable != 0, Preprocesses: of.preprocesses != 0,
		}
	}
	kept := all.count - all.dropped
	return &Plan{commands[:kept:kept], commands[kept:], own(unsafe.Pointer(g.plan))}, nil
}

// Plan runs the dry runs, and plans.
func (c *Call) Plan() (*Plan, error) {
	g := given{keeps: c.call}
	return g.planned(C.zigrunk_call_plan((*C.zigrunk_call)(c.call.pointer), &g.plan, &g.why))
}

// PlanOf plans what the dry runs printed. NoDryRun, and the input that is at fault, if the texts aren't the dry runs of this call; ToNvcc if nvcc does
// something else for the line, or a command reads a file that no command before it writes. If someone else wrote them, give it a limit on the bytes
// that reading them makes; 0 is none. The programs are where those are that the runs name: nil looks on this machine's disk.
func (c *Call) PlanOf(ownRun, first, second []byte, programs []FoundProgram, limit int) (*Plan, error) {
	g := given{keeps: c.call}
	table, count := g.programs(programs)
	runs := C.zigrunk_dry_runs{g.text(string(ownRun)), g.text(string(first)), g.text(string(second)), table, count, C.size_t(limit)}
	return g.planned(C.zigrunk_call_plan_of((*C.zigrunk_call)(c.call.pointer), &runs, &g.plan, &g.why))
}

// PlanOf plans two dry runs alone, with generated files under canonical names: zigrunk_plan_call of zigrunk.h says what they are.
func PlanOf(dry1, dry2 []byte, directory, tmp, flag string, environment []string, programs []FoundProgram, limit int) (*Plan, error) {
	var g given
	table, count := g.programs(programs)
	call := C.zigrunk_plan_call{dry1: g.text(string(dry1)), dry2: g.text(string(dry2)), cwd: g.text(directory), tmp: g.text(tmp),
		flag: g.text(flag), environment: g.texts(environment), programs: table, programs_count: count, limit: C.size_t(limit)}
	return g.planned(C.zigrunk_plan_of(&call, &g.plan, &g.why))
}

func first(all []string, err error) (string, error) { return append(all, "")[0], err }

// Text is the plan as "json", "ninja", "shell", "compdb" or "text".
func (p *Plan) Text(format string) (string, error) {
	g := given{keeps: p.plan}
	return first(g.answered(C.zigrunk_plan_text((*C.zigrunk_plan)(p.plan.pointer), g.text(format), &g.answer, &g.why)))
}

// Key is what a cache hashes of a command, by its number, and the files to hash with it and with what the command reads: they tell one version of its
// tool from another. Two commands for which all that is equal make files of equal contents, in whatever directories they run; EMBEDDING.md has two
// exceptions. It's an error (BadLine) that says why if a cache may not serve the command. So ask when the commands that it needs have ended.
func (p *Plan) Key(number int) (key []byte, toolFiles []string, err error) {
	g := given{keeps: p.plan}
	all, err := g.answered(C.zigrunk_plan_key((*C.zigrunk_plan)(p.plan.pointer), C.size_t(number), &g.answer, &g.why))
	if err != nil {
		return nil, nil, err
	}
	return []byte(all[0]), all[1:], nil
}

// Split lists the words that a POSIX shell reads in a text.
func Split(text string) ([]string, error) {
	var g given
	return g.answered(C.zigrunk_split(g.text(text), &g.answer, &g.why))
}

// Quote is words as one text, which a POSIX shell reads as these words.
func Quote(words []string) (string, error) {
	var g given
	return first(g.answered(C.zigrunk_quote(g.texts(words), &g.answer, &g.why)))
}

// Remap is words with canonical names for the files that nvcc generates. The suffixes are behind the standard ones.
func Remap(words, suffixes []string) ([]string, error) {
	var g given
	return g.answered(C.zigrunk_remap(g.texts(words), g.texts(suffixes), &g.answer, &g.why))
}

// Headers lists the files that the output of a preprocessor names.
func Headers(output []byte) ([]string, error) {
	var g given
	return g.answered(C.zigrunk_headers(g.text(string(output)), &g.answer, &g.why))
}

// Lookups lists the look-ups of programs that a plan of two dry runs needs, none twice.
func Lookups(dry1, dry2 []byte, directory string, limit int) (found []Lookup, err error) {
	var g given
	all, err := g.answered(C.zigrunk_lookups(g.text(string(dry1)), g.text(string(dry2)), g.text(directory), C.size_t(limit), &g.answer, &g.why))
	for i := 0; i+1 < len(all); i += 2 {
		found = append(found, Lookup{all[i], all[i+1]})
	}
	return found, err
}

// Candidates lists the paths that a look-up tries, in order: the first that is an executable file is the program.
func Candidates(of Lookup, directory string) ([]string, error) {
	var g given
	return g.answered(C.zigrunk_candidates(g.text(of.Program), g.text(of.Path), g.text(directory), &g.answer, &g.why))
}

// Schedule says which command of a plan may start next, and which outputs may be printed. It starts nothing: you say what happened.
type Schedule struct {
	schedule *owned
	size     int
}

// NewSchedule is a schedule of a plan of which nothing has started. After a failure only commands before it start.
func NewSchedule(plan *Plan, slots int) (*Schedule, error) {
	g := given{keeps: plan.plan}
	plans := copied(&g, []*C.zigrunk_plan{(*C.zigrunk_plan)(plan.plan.pointer)})
	call := C.zigrunk_schedule_call{plans: plans, plans_count: 1, slots: C.size_t(slots), after_failure: C.ZIGRUNK_START_EARLIER}
	err := g.ended(C.zigrunk_schedule_of(&call, &g.schedule, &g.why))
	return &Schedule{own(unsafe.Pointer(g.schedule)), len(plan.Commands)}, err
}

// Start is the number of a command to start now, which counts as started, or -1 if none may start.
func (s *Schedule) Start() int {
	defer runtime.KeepAlive(s)
	return int(C.zigrunk_schedule_start((*C.zigrunk_schedule)(s.schedule.pointer)))
}

// Ended notes how a command ended, and says whether it was running.
func (s *Schedule) Ended(command int, succeeded bool) bool {
	defer runtime.KeepAlive(s)
	outcome := map[bool]C.uint32_t{true: C.ZIGRUNK_SUCCEEDED, false: C.ZIGRUNK_FAILED}[succeeded]
	return C.zigrunk_schedule_ended((*C.zigrunk_schedule)(s.schedule.pointer), C.size_t(command), outcome) == C.ZIGRUNK_OK
}

// Told says up to which command the outputs from a first one on may be printed, and whether nothing runs and nothing may start.
func (s *Schedule) Told(first int) (end int, over bool) {
	defer runtime.KeepAlive(s)
	progress := C.zigrunk_schedule_progress((*C.zigrunk_schedule)(s.schedule.pointer), C.size_t(first), C.size_t(s.size))
	return int(progress.told), progress.is_over != 0
}

// Output is a file that such a line makes: what it is, as "obj", its path, and whether the command may leave it out.
type Output struct {
	Key, Path string
	Optional  bool
}

// Line is what a line of cicc, ptxas, cudafe++, nvcc, nvc or nvc++ says: zigrunk_line of zigrunk.h says what its fields are.
type Line struct {
	Input, CompilationFlag                                                                               string
	Outputs                                                                                              []Output
	DependencyArgs, PreprocessorArgs, CommonArgs, ArchArgs, UnhashedArgs, ExtraDistFiles, ExtraHashFiles []string
	Language, ColorMode                                                                                  uint32
	DoubleDashInput                                                                                      bool
}

func (g *given) lineOf(tool Tool, directory string, words, environment []string) *C.zigrunk_line_call {
	return &C.zigrunk_line_call{cwd: g.text(directory), words: g.texts(words), environment: g.texts(environment), tool: C.uint32_t(tool)}
}

// LineRecords reads a line, without the tool's name. It's an error (BadLine) if it compiles nothing, or no cache can serve it.
func LineRecords(tool Tool, directory string, words, environment []string) (*Line, error) {
	var g given
	if err := g.ended(C.zigrunk_line_records(g.lineOf(tool, directory, words, environment), &g.line, &g.why)); err != nil {
		return nil, err
	}
	defer C.zigrunk_free(unsafe.Pointer(g.line))
	of, outputs := g.line, make([]Output, g.line.output_keys.count)
	keys, paths := texts(of.output_keys), texts(of.output_paths)
	for i, optional := range unsafe.Slice(of.output_is_optional, len(outputs)) {
		outputs[i] = Output{keys[i], paths[i], optional != 0}
	}
	return &Line{text(of.input), text(of.compilation_flag), outputs, texts(of.dependency_args), texts(of.preprocessor_args), texts(of.common_args),
		texts(of.arch_args), texts(of.unhashed_args), texts(of.extra_dist_files), texts(of.extra_hash_files), uint32(of.language),
		uint32(of.color_mode), of.double_dash_input != 0}, nil
}

// LineWords lists the words that such a line is written back as.
func LineWords(tool Tool, directory string, words, environment []string) ([]string, error) {
	var g given
	return g.answered(C.zigrunk_line_words(g.lineOf(tool, directory, words, environment), &g.answer, &g.why))
}

// CommandKey is what a cache hashes of a command that no plan has: zigrunk_command_key of zigrunk.h says what it is for.
func CommandKey(tool Tool, words, environment, roots []string) (string, error) {
	var g given
	call := C.zigrunk_key_call{words: g.texts(words), environment: g.texts(environment), roots: g.texts(roots), tool: C.uint32_t(tool)}
	return first(g.answered(C.zigrunk_command_key(&call, &g.answer, &g.why)))
}
