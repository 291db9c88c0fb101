// A server of its own, two puts, a list of their prefix, and a watch of it: go run client.go
package main

import (
	"bufio"
	"bytes"
	"encoding/json"
	"fmt"
	"net/http"
	"os"
	"os/exec"
	"strings"
)

// Go writes and reads a []byte in JSON as base64, as the gateway does.
type pair struct {
	Key   []byte `json:"key"`
	Value []byte `json:"value,omitempty"`
}

type keyRange struct {
	Key   []byte `json:"key"`
	End   []byte `json:"range_end"`
	Start string `json:"start_revision,omitempty"`
}

func check(err error) {
	if err != nil {
		fmt.Fprintln(os.Stderr, err)
		os.Exit(1)
	}
}

func post(address, path string, body interface{}) *http.Response {
	text, err := json.Marshal(body)
	check(err)
	reply, err := http.Post("http://"+address+"/v3/"+path, "application/json", bytes.NewReader(text))
	check(err)
	return reply
}

func main() {
	program := os.Getenv("ETCD_ONE")
	if program == "" {
		program = "./etcd_one"
	}
	server := exec.Command(program, "serve", "--listen", "127.0.0.1:0")
	stderr, err := server.StderrPipe()
	check(err)
	check(server.Start())
	defer server.Wait()
	defer server.Process.Kill()
	address := ""
	for lines := bufio.NewScanner(stderr); address == "" && lines.Scan(); {
		if strings.HasPrefix(lines.Text(), "listening on ") {
			address = strings.TrimPrefix(lines.Text(), "listening on ")
		}
	}
	post(address, "kv/put", pair{[]byte("/jobs/a"), []byte("one")}).Body.Close()
	post(address, "kv/put", pair{[]byte("/jobs/b"), []byte("two")}).Body.Close()

	// The end of a prefix is its last byte, one more.
	jobs := keyRange{Key: []byte("/jobs/"), End: []byte("/jobs0")}
	reply := post(address, "kv/range", jobs)
	var told struct{ Kvs []pair }
	check(json.NewDecoder(reply.Body).Decode(&told))
	reply.Body.Close()
	fmt.Print("listed")
	for _, kv := range told.Kvs {
		fmt.Printf(" %s=%s", kv.Key, kv.Value)
	}

	jobs.Start = "2"
	watch := post(address, "watch", map[string]keyRange{"create_request": jobs})
	defer watch.Body.Close()
	fmt.Print("\nwatched")
	for seen, messages := 0, json.NewDecoder(watch.Body); seen < len(told.Kvs); {
		var message struct {
			Result struct{ Events []struct{ Kv pair } }
		}
		check(messages.Decode(&message))
		for _, event := range message.Result.Events {
			fmt.Printf(" %s=%s", event.Kv.Key, event.Kv.Value)
			seen++
		}
	}
	fmt.Println()
}
