// A cache of nvcc's commands on a socket. `cacheserver serve SOCKET FOLDER` keeps what commands make in FOLDER, and `cacheserver make SOCKET WORD..`
// makes what `nvcc WORD..` makes: it plans the call, and asks the server for what each command makes before it runs the command. If the variable
// CACHESERVER_LOG names a file, it notes there how many came from the server.
package main

import (
	"bytes"
	"crypto/sha256"
	"encoding/gob"
	"encoding/hex"
	"errors"
	"fmt"
	"log"
	"net"
	"net/rpc"
	"os"
	"os/exec"
	"path/filepath"
	"zigrunk"
)

// Entry is what a command made: its files, by their places among those that it writes, and what it printed.
type Entry struct {
	Files          map[int][]byte
	Output, Errors []byte
}

// Named is an entry with its key.
type Named struct {
	Key   string
	Entry Entry
}

// Cache is the server's part: an entry is a file of its folder.
type Cache struct{ folder string }

func (c Cache) path(key string) string { return filepath.Join(c.folder, filepath.Base(key)) }

// Get finds an entry. It's an error if there is none.
func (c Cache) Get(key string, entry *Entry) error {
	file, err := os.Open(c.path(key))
	if err != nil {
		return err
	}
	defer file.Close()
	return gob.NewDecoder(file).Decode(entry)
}

// Put keeps an entry. It's written under another name first, so that nobody finds a part of it.
func (c Cache) Put(of Named, _ *bool) error {
	file, err := os.CreateTemp(c.folder, "new")
	if err != nil {
		return err
	}
	defer file.Close()
	if err = gob.NewEncoder(file).Encode(of.Entry); err != nil {
		return err
	}
	return os.Rename(file.Name(), c.path(of.Key))
}

// keyOf is the digest of all that a command's products depend on: its key, its tool, and what it reads. There is none if no cache may serve it.
func keyOf(plan *zigrunk.Plan, number int, command *zigrunk.Command) string {
	key, tool, err := plan.Key(number)
	if err != nil {
		return ""
	}
	sum := sha256.New()
	sum.Write(key)
	for _, path := range append(tool, command.Reads...) {
		content, missing := os.ReadFile(path)
		if missing != nil {
			return ""
		}
		digest := sha256.Sum256(content)
		sum.Write(digest[:])
	}
	return hex.EncodeToString(sum.Sum(nil))
}

func written(command *zigrunk.Command) []string {
	return append(append([]string{}, command.Writes...), command.MayWrite...)
}

func processOf(run zigrunk.Run) *exec.Cmd {
	process := exec.Command(run.Words[0], run.Words[1:]...)
	process.Dir, process.Env, process.Stdout, process.Stderr = run.Directory, run.Environment, os.Stdout, os.Stderr
	return process
}

// run runs a command, and notes what it makes.
func run(command *zigrunk.Command) (Entry, error) {
	var output, printed bytes.Buffer
	process := processOf(command.Run)
	process.Stdout, process.Stderr = &output, &printed
	err := process.Run()
	entry := Entry{map[int][]byte{}, output.Bytes(), printed.Bytes()}
	for i, path := range written(command) {
		if content, missing := os.ReadFile(path); missing == nil {
			entry.Files[i] = content
		}
	}
	return entry, err
}

// made makes what a command makes, and says whether the server had it.
func made(server *rpc.Client, key string, command *zigrunk.Command) (entry Entry, hit bool, err error) {
	if key != "" && server.Call("Cache.Get", key, &entry) == nil {
		for i, path := range written(command) {
			if content, is := entry.Files[i]; is && err == nil {
				err = os.WriteFile(path, content, 0o666)
			}
		}
		return entry, true, err
	}
	entry, err = run(command)
	if key != "" && err == nil {
		// (a server that is full or gone costs hits, not the build)
		_ = server.Call("Cache.Put", Named{key, entry}, new(bool))
	}
	return entry, false, err
}

// code is the status of a process that ended so.
func code(err error) int {
	exit := &exec.ExitError{}
	if errors.As(err, &exit) {
		return exit.ExitCode()
	} else if err != nil {
		log.Print(err)
		return 1
	}
	return 0
}

// makePlan makes the commands of a plan in its order.
func makePlan(server *rpc.Client, plan *zigrunk.Plan) int {
	hits := 0
	for i := range plan.Commands {
		command := &plan.Commands[i]
		entry, hit, err := made(server, keyOf(plan, i, command), command)
		os.Stdout.Write(entry.Output)
		os.Stderr.Write(entry.Errors)
		if err != nil {
			return code(err)
		} else if hit {
			hits++
		}
	}
	if path := os.Getenv("CACHESERVER_LOG"); path != "" {
		return code(os.WriteFile(path, []byte(fmt.Sprintf("%d of %d\n", hits, len(plan.Commands))), 0o666))
	}
	return 0
}

func makeCall(socket, tmp string, words []string) int {
	var plan *zigrunk.Plan
	directory, _ := os.Getwd()
	call, err := zigrunk.NewCall("nvcc", words, os.Environ(), directory, tmp)
	if err == nil {
		plan, err = call.Plan()
	}
	server, refused := rpc.Dial("unix", socket)
	if err != nil || refused != nil {
		byNvcc := zigrunk.Run{Words: append([]string{"nvcc"}, words...), Environment: os.Environ(), Directory: directory}
		return code(processOf(byNvcc).Run())
	}
	if len(call.Dependencies.Words) > 0 {
		if failed := code(processOf(call.Dependencies).Run()); failed != 0 {
			return failed
		}
	}
	return makePlan(server, plan)
}

func main() {
	if len(os.Args) < 4 {
		log.Fatal("usage: cacheserver serve SOCKET FOLDER | cacheserver make SOCKET WORD..")
	} else if os.Args[1] == "serve" {
		listener, err := net.Listen("unix", os.Args[2])
		if err != nil {
			log.Fatal(err)
		}
		rpc.Register(Cache{os.Args[3]})
		rpc.Accept(listener)
	}
	tmp, err := os.MkdirTemp("", "cacheserver")
	if err != nil {
		log.Fatal(err)
	}
	status := makeCall(os.Args[2], tmp, os.Args[3:])
	os.RemoveAll(tmp)
	os.Exit(status)
}
