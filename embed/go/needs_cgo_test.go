package rookdresser

import (
	"fmt"
	"os"
	"os/exec"
	"path/filepath"
	"strings"
	"testing"
)

// In a module of its own, as a user's.
func TestABuildThatCannotHaveTheLibrarySaysSoByOneUndefinedName(t *testing.T) {
	here, err := os.Getwd()
	mustPut(t, err)
	user := t.TempDir()
	module := fmt.Sprintf("module user\n\nrequire rookdresser v0.0.0\n\nreplace rookdresser => %q\n", here)
	mustPut(t, os.WriteFile(filepath.Join(user, "go.mod"), []byte(module), 0o600))
	mustPut(t, os.WriteFile(filepath.Join(user, "user.go"), []byte("package user\n\nimport _ \"rookdresser\"\n"), 0o600))
	// A vet for another platform would take some ten seconds.
	for _, line := range []string{
		"CGO_ENABLED=0 go build", "CGO_ENABLED=0 go vet", "GOARCH=arm64 go build", "GOARCH=arm64 CGO_ENABLED=1 go build", "GOOS=darwin go build",
		"GOOS=windows CGO_ENABLED=1 go build",
	} {
		form, word, _ := strings.Cut(line, "go ")
		command := exec.Command("go", word, ".")
		command.Dir, command.Env = user, append(append(os.Environ(), "GOFLAGS=-mod=mod", "GOPROXY=off"), strings.Fields(form)...)
		said, err := command.CombinedOutput()
		lines := strings.Split(strings.TrimSpace(string(said)), "\n")
		if err == nil || len(lines) != 2 || lines[0] != "# rookdresser" || !strings.HasSuffix(lines[1], ": undefined: rookdresser_needs_cgo_on_linux_amd64") {
			t.Errorf("%s: %v\n%s", line, err, said)
		}
	}
}
