// The Telegram Problem as a Go programmer would write it: a goroutine for each process, channels of 10 and a packet for each
// line and word. `telegram IN OUT SIZE` writes lines of at most SIZE bytes, or of one longer word.
package main

import (
	"bytes"
	"fmt"
	"os"
	"strconv"
)

type packet struct {
	text []byte
}

const capacity = 10

func read(input []byte, out chan<- *packet) {
	defer close(out)
	if len(input) == 0 {
		return
	}
	text := bytes.TrimSuffix(input, []byte("\n"))
	for more := true; more; {
		var line []byte
		line, text, more = bytes.Cut(text, []byte("\n"))
		line = bytes.TrimSuffix(line, []byte("\r"))
		out <- &packet{append([]byte(nil), line...)}
	}
}

func isBlank(letter byte) bool {
	return letter == ' ' || letter == '\t'
}

func split(in <-chan *packet, out chan<- *packet) {
	defer close(out)
	for each := range in {
		line := each.text
		for start := 0; start < len(line); {
			end := start
			for end < len(line) && !isBlank(line[end]) {
				end++
			}
			if end > start {
				out <- &packet{append([]byte(nil), line[start:end]...)}
			}
			start = end + 1
		}
	}
}

func fill(in <-chan *packet, out chan<- *packet, size int) {
	defer close(out)
	var line []byte
	for each := range in {
		if len(line) == 0 {
			line = append(line, each.text...)
		} else if len(line)+1+len(each.text) <= size {
			line = append(line, ' ')
			line = append(line, each.text...)
		} else {
			out <- &packet{line}
			line = append([]byte(nil), each.text...)
		}
	}
	if len(line) > 0 {
		out <- &packet{line}
	}
}

func write(in <-chan *packet) []byte {
	var output []byte
	for each := range in {
		output = append(output, each.text...)
		output = append(output, '\n')
	}
	return output
}

func main() {
	if len(os.Args) != 4 {
		fmt.Fprintln(os.Stderr, "usage: telegram IN OUT SIZE")
		os.Exit(2)
	}
	size, err := strconv.Atoi(os.Args[3])
	if err != nil {
		fmt.Fprintln(os.Stderr, err)
		os.Exit(2)
	}
	input, err := os.ReadFile(os.Args[1])
	if err != nil {
		fmt.Fprintln(os.Stderr, err)
		os.Exit(1)
	}
	lines, words, filled := make(chan *packet, capacity), make(chan *packet, capacity), make(chan *packet, capacity)
	go read(input, lines)
	go split(lines, words)
	go fill(words, filled, size)
	if err := os.WriteFile(os.Args[2], write(filled), 0o644); err != nil {
		fmt.Fprintln(os.Stderr, err)
		os.Exit(1)
	}
}
