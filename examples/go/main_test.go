// Package secrets has tests against one server of theirs, at a free port. SECRETSD names the program.
package secrets

import (
	"bufio"
	"log"
	"os"
	"os/exec"
	"strings"
	"testing"
)

// address is that of the server, once TestMain has started it.
var address string

func TestMain(m *testing.M) {
	server := exec.Command(os.Getenv("SECRETSD"), "--mode", "serve", "--listen", "127.0.0.1:0")
	said, err := server.StderrPipe()
	if err == nil {
		err = server.Start()
	}
	if err != nil {
		log.Fatal(err)
	}
	// secretsd: listening on 127.0.0.1:40123, ..
	line, _ := bufio.NewReader(said).ReadString('\n')
	address = "http://" + strings.TrimSuffix(strings.Fields(line)[3], ",")
	status := m.Run()
	server.Process.Kill()
	os.Exit(status)
}
