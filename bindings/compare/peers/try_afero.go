// try_afero.go: the files in memory of afero, from Go. A step is a layer of CopyOnWriteFs.
package main

import (
	"fmt"
	"os"
	"reflect"
	"regexp"

	"github.com/spf13/afero"
)

func say(question, answer, text string) {
	fmt.Printf("%s: %s: %s\n", question, answer, text)
}

func yesIf(holds bool) string {
	if holds {
		return "yes"
	}
	return "no"
}

// begin makes a step: a layer over what there is. To undo it is to drop it.
func begin(below afero.Fs) afero.Fs {
	return afero.NewCopyOnWriteFs(below, afero.NewMemMapFs())
}

func write(files afero.Fs, name string) {
	if err := afero.WriteFile(files, name, []byte("some"), 0o644); err != nil {
		panic(err)
	}
}

func has(files afero.Fs, name string) bool {
	there, err := afero.Exists(files, name)
	return there && err == nil
}

func nested() {
	base := afero.NewMemMapFs()
	write(base, "/old")
	outer := begin(base)
	write(outer, "/a")
	inner := begin(outer)
	write(inner, "/b")
	isUndone := has(inner, "/b") && has(outer, "/a") && !has(outer, "/b") && !has(base, "/a")
	removed := outer.Remove("/old")
	switch {
	case isUndone && removed == nil:
		say("nested", "yes", "layers are dropped")
	case isUndone:
		say("nested", "partly", fmt.Sprintf("a layer is dropped, but in it: %v", removed))
	default:
		say("nested", "no", "dropped layers are seen")
	}
}

func kept() {
	files := afero.NewMemMapFs()
	write(files, "/a")
	if err := files.Chmod("/a", 0o750); err != nil {
		panic(err)
	}
	told, err := files.Stat("/a")
	_, hasLinks := files.(afero.Linker)
	isKept := err == nil && told.Mode().Perm() == 0o750
	answer := yesIf(isKept)
	if isKept && !hasLinks {
		answer = "partly"
	}
	say("kept", answer, fmt.Sprintf("0750 is %o, links: %v", told.Mode().Perm(), hasLinks))
}

// methods names the methods of a layer by which it could be merged, or name others.
func methods() (found []string) {
	words := regexp.MustCompile("(?i)apply|block|commit|conflict|flush|lock|merge")
	layer := reflect.TypeOf(&afero.CopyOnWriteFs{})
	for number := 0; number < layer.NumMethod(); number++ {
		if name := layer.Method(number).Name; words.MatchString(name) {
			found = append(found, name)
		}
	}
	return found
}

func main() {
	fmt.Println("version: afero, as it is installed")
	nested()
	found := methods()
	say("together", yesIf(len(found) > 0), fmt.Sprintf("methods that merge layers: %v", found))
	say("blocks", yesIf(len(found) > 0), fmt.Sprintf("methods that tell of others: %v", found))
	place := fmt.Sprintf("/afero-%d", os.Getpid())
	write(afero.NewMemMapFs(), place)
	_, err := os.Stat(place)
	say("seen", yesIf(err == nil), "the system has no such file")
	say("killed", "no", "it is in the memory of the process, and gone with it")
	kept()
	say("mounts", "no", "nothing of it is in the system")
}
