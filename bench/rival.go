// What a Go programmer would write for the copying network: a goroutine for each process, channels of 10 and a packet for
// each line. `rival IN OUT` copies the lines of IN to OUT, each ended by a line feed.
package main

import (
	"bytes"
	"fmt"
	"os"
)

type packet struct {
	text []byte
}

const capacity = 10

func read(input []byte, out chan<- *packet) {
	defer close(out)
	if len(input) == 0 {
		return
	}
	text := bytes.TrimSuffix(input, []byte("\n"))
	for more := true; more; {
		var line []byte
		line, text, more = bytes.Cut(text, []byte("\n"))
		line = bytes.TrimSuffix(line, []byte("\r"))
		out <- &packet{append([]byte(nil), line...)}
	}
}

func pass(in <-chan *packet, out chan<- *packet) {
	defer close(out)
	for each := range in {
		out <- each
	}
}

func write(in <-chan *packet) []byte {
	var output []byte
	for each := range in {
		output = append(output, each.text...)
		output = append(output, '\n')
	}
	return output
}

func main() {
	if len(os.Args) != 3 {
		fmt.Fprintln(os.Stderr, "usage: rival IN OUT")
		os.Exit(2)
	}
	input, err := os.ReadFile(os.Args[1])
	if err != nil {
		fmt.Fprintln(os.Stderr, err)
		os.Exit(1)
	}
	lines, passed := make(chan *packet, capacity), make(chan *packet, capacity)
	go read(input, lines)
	go pass(lines, passed)
	if err := os.WriteFile(os.Args[2], write(passed), 0o644); err != nil {
		fmt.Fprintln(os.Stderr, err)
		os.Exit(1)
	}
}
