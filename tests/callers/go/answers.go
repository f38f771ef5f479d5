// All that the Go layer says of the rows of misuses.txt, as answers.c prints it: `answers ROOM < misuses.txt`, or
// `answers --call TMP NVCC WORD..`.
package main

import (
	"bufio"
	"errors"
	"fmt"
	"log"
	"os"
	"path/filepath"
	"strings"
	"zigrunk"
)

var out = bufio.NewWriter(os.Stdout)

func printTexts(name string, texts ...string) {
	for _, text := range texts {
		fmt.Fprint(out, name, " ")
		for _, it := range []byte(text) {
			if it < 33 || it > 126 || it == '\\' {
				fmt.Fprintf(out, "\\%02x", it)
			} else {
				out.WriteByte(it)
			}
		}
		fmt.Fprintln(out)
	}
}

func printRun(name string, run zigrunk.Run) {
	fmt.Fprintln(out, name)
	if len(run.Words) > 0 {
		printTexts(" word", run.Words...)
		printTexts(" variable", run.Environment...)
		printTexts(" cwd", run.Directory)
	}
}

func printRefusal(err error) {
	refused := &zigrunk.Error{}
	if !errors.As(err, &refused) {
		log.Fatal(err)
	}
	fmt.Fprintln(out, "refused", int(refused.Status), refused.Input, refused.Line)
	printTexts("message", refused.Message)
}

func printCall(call *zigrunk.Call) {
	for i, name := range []string{"own", "first", "second"} {
		printRun(name, call.DryRuns[i])
	}
	printRun("dependencies", call.Dependencies)
	printTexts("flag", call.Flag)
	name := "keep_dir"
	if call.KeepDir == "" {
		name = "no keep_dir"
	}
	printTexts(name, call.KeepDir)
	printTexts("input", call.Input)
	printTexts("output", call.Outputs...)
	fmt.Fprintln(out, "jobs", call.Jobs)
}

func one(is bool) int {
	if is {
		return 1
	}
	return 0
}

func printCommand(of *zigrunk.Command) {
	word, group := "a", of.Group
	if group < 0 {
		word, group = "no", 0
	}
	fmt.Fprintf(out, "command of %s group, %d, stage %d, tool %d, missing %d, reason %d, run %d, line %d, cacheable %d, preprocesses %d\n", word, group,
		of.Stage, of.Tool, of.Missing, of.Reason, of.DryRun, of.Line, one(of.Cacheable), one(of.Preprocesses))
	printTexts(" word", of.Words...)
	printTexts(" variable", of.Environment...)
	printTexts(" cwd", of.Directory)
	printTexts(" reads", of.Reads...)
	printTexts(" writes", of.Writes...)
	printTexts(" may write", of.MayWrite...)
	printTexts(" target", of.Targets...)
	for _, need := range of.Needs {
		fmt.Fprintln(out, " needs", need)
	}
}

// printSchedule: two slots, and the command that began first ends first.
func printSchedule(plan *zigrunk.Plan) {
	schedule, err := zigrunk.NewSchedule(plan, 2)
	if err != nil {
		log.Fatal(err)
	}
	running := []int{}
	for _, over := schedule.Told(0); !over; _, over = schedule.Told(0) {
		for next := schedule.Start(); next >= 0; next = schedule.Start() {
			fmt.Fprintln(out, "start", next)
			running = append(running, next)
		}
		if !schedule.Ended(running[0], true) {
			log.Fatal("a command doesn't run")
		}
		running = running[1:]
		told, _ := schedule.Told(0)
		fmt.Fprintln(out, "told", told)
	}
}

// printFailure: one slot, and the third command fails.
func printFailure(plan *zigrunk.Plan) {
	schedule, err := zigrunk.NewSchedule(plan, 1)
	if err != nil {
		log.Fatal(err)
	}
	for next := schedule.Start(); next >= 0; next = schedule.Start() {
		schedule.Ended(next, next != 2)
		told, _ := schedule.Told(0)
		fmt.Fprintf(out, "alone %d, told %d\n", next, told)
	}
	fmt.Fprintln(out, "again", one(schedule.Ended(0, true)))
}

// printAnswer prints what a function gives, or why it refuses.
func printAnswer(name string, texts []string, err error) bool {
	if err != nil {
		printRefusal(err)
	} else {
		printTexts(name, texts...)
	}
	return err == nil
}

func printOwnWords(words []string) {
	quoted, err := zigrunk.Quote(words)
	if printAnswer("quoted", []string{quoted}, err) {
		split, err := zigrunk.Split(quoted)
		printAnswer("split", split, err)
	}
	renamed, err := zigrunk.Remap(words, []string{".x.ii"})
	printAnswer("other", renamed, err)
}

// printAlone: two dry runs without their line, within a limit: the commands, with those that are dropped.
func printAlone(first, second []byte, cwd, tmp string, limit int) {
	fmt.Fprintf(out, "without a line, %d\n", limit)
	plan, err := zigrunk.PlanOf(first, second, cwd, tmp, "-c", []string{"ODD=a b", "EMPTY="}, nil, limit)
	if err != nil {
		printRefusal(err)
		return
	}
	for _, commands := range [][]zigrunk.Command{plan.Commands, plan.Dropped} {
		for i := range commands {
			printCommand(&commands[i])
		}
	}
	text, err := plan.Text("compdb")
	printAnswer("compdb", []string{text}, err)
}

func printLine(of *zigrunk.Command) {
	line, err := zigrunk.LineRecords(of.Tool, of.Directory, of.Words[1:], nil)
	if err != nil {
		log.Fatal(err)
	}
	printTexts(" line", line.Input, line.CompilationFlag)
	for _, output := range line.Outputs {
		printTexts(" line", output.Key)
	}
	for _, output := range line.Outputs {
		printTexts(" line", output.Path)
	}
	for _, texts := range [][]string{line.DependencyArgs, line.PreprocessorArgs, line.CommonArgs, line.ArchArgs, line.UnhashedArgs, line.ExtraDistFiles,
		line.ExtraHashFiles} {
		printTexts(" line", texts...)
	}
	fmt.Fprintln(out, " line of", line.Language, line.ColorMode, one(line.DoubleDashInput), one(line.Outputs[0].Optional))
	written, err := zigrunk.LineWords(of.Tool, of.Directory, of.Words[1:], nil)
	if err != nil {
		log.Fatal(err)
	}
	printTexts(" written", written...)
	key, err := zigrunk.CommandKey(of.Tool, of.Words, of.Environment, []string{of.Directory})
	if err != nil {
		log.Fatal(err)
	}
	printTexts(" own key", key)
}

func printTable(call *zigrunk.Call, own, first, second []byte, cwd string) error {
	asked, err := zigrunk.Lookups(first, second, cwd, 0)
	if err != nil {
		log.Fatal(err)
	}
	for _, it := range asked {
		printTexts("lookup", it.Program, it.Path)
	}
	programs := []zigrunk.FoundProgram{}
	for _, it := range asked {
		tried, err := zigrunk.Candidates(it, cwd)
		if err != nil {
			log.Fatal(err)
		}
		printTexts("candidate", tried...)
		programs = append(programs, zigrunk.FoundProgram{Lookup: it, Found: tried[0]})
	}
	plan, err := call.PlanOf(own, first, second, programs, 0)
	if err != nil {
		return err
	}
	text, err := plan.Text("text")
	if err != nil {
		return err
	}
	printTexts("text", text)
	programs[0].Found = ""
	_, err = call.PlanOf(own, first, second, programs, 0)
	return err
}

func printPlan(plan *zigrunk.Plan) {
	for i := range plan.Commands {
		printCommand(&plan.Commands[i])
		if plan.Commands[i].Tool == zigrunk.Cicc {
			printLine(&plan.Commands[i])
		}
		if key, files, err := plan.Key(i); err != nil {
			printRefusal(err)
		} else {
			printTexts(" key", append([]string{string(key)}, files...)...)
		}
	}
	for i := range plan.Dropped {
		printCommand(&plan.Dropped[i])
	}
	for _, format := range []string{"json", "ninja", "shell", "text", "none"} {
		if text, err := plan.Text(format); err != nil {
			printRefusal(err)
		} else {
			printTexts(format, text)
		}
	}
	renamed, err := zigrunk.Remap(plan.Commands[len(plan.Commands)-1].Words, nil)
	if err != nil {
		log.Fatal(err)
	}
	printTexts("renamed", renamed...)
	headers, err := zigrunk.Headers([]byte("# 1 \"a.h\"\n# 2 \"k \\\"b\" 2\n# 3 \"a.h\"\n"))
	if err != nil {
		log.Fatal(err)
	}
	printTexts("header", headers...)
	printSchedule(plan)
	printFailure(plan)
}

func printRow(room string, row []string) {
	own, first, second := content(room, row[7]), content(room, row[2]), content(room, row[3])
	words := strings.Split(string(content(room, row[8])), "\x00")
	words = words[:len(words)-1]
	if err := printCalled(room, room+"/"+row[1], words, own, first, second); err != nil {
		printRefusal(err)
	}
	for _, limit := range []int{1 << 20, 1000} {
		printAlone(first, second, room+"/w", room+"/"+row[1], limit)
	}
	printOwnWords(words)
}

func printCalled(room, tmp string, words []string, own, first, second []byte) error {
	call, err := zigrunk.NewCall(room+"/bin/nvcc", words, os.Environ(), room+"/w", tmp)
	if err != nil {
		return err
	}
	printCall(call)
	plan, err := call.PlanOf(own, first, second, nil, 0)
	if err != nil {
		return err
	}
	printPlan(plan)
	return printTable(call, own, first, second, room+"/w")
}

func content(room, name string) []byte {
	read, err := os.ReadFile(filepath.Join(room, name))
	if err != nil {
		log.Fatal(err)
	}
	return read
}

func printMade(tmp string, words []string) error {
	cwd, err := os.Getwd()
	if err != nil {
		log.Fatal(err)
	}
	call, err := zigrunk.NewCall(words[0], words[1:], os.Environ(), cwd, tmp)
	if err != nil {
		return err
	}
	printCall(call)
	plan, err := call.Plan()
	if err == nil {
		printPlan(plan)
	}
	return err
}

func main() {
	defer out.Flush()
	if len(os.Args) > 3 && os.Args[1] == "--call" {
		if err := printMade(os.Args[2], os.Args[3:]); err != nil {
			printRefusal(err)
		}
		return
	}
	for rows := bufio.NewScanner(os.Stdin); rows.Scan(); {
		row := strings.Fields(rows.Text())
		fmt.Fprintln(out, "==", row[0])
		printRow(os.Args[1], row)
	}
}
