package serve

import (
	"bufio"
	"fmt"
	"os"
	"strings"
	"sync"
	"time"
)

const (
	mostReason = 64 << 10 // bytes of a line of standard error
	mostKept   = 64       // reasons that nobody has asked for yet
	mostRest   = 16 << 10 // bytes of other lines
)

// reasons are the lines that `--explain` writes to standard error: `why: INPUT line N, NUMBER NAME: ..`.
type reasons struct {
	mu    sync.Mutex
	kept  []string
	other strings.Builder
	told  chan struct{} // closed and made anew when a line comes
	done  chan struct{} // closed when no more come
}

func readReasons(stream *os.File) *reasons {
	r := &reasons{told: make(chan struct{}), done: make(chan struct{})}
	go func() {
		defer close(r.done)
		defer stream.Close()
		reader := bufio.NewReader(stream)
		for {
			line, err := readLine(reader, mostReason)
			if err != nil {
				return
			}
			r.take(string(line))
		}
	}()
	return r
}

func (r *reasons) take(line string) {
	r.mu.Lock()
	defer r.mu.Unlock()
	if why := strings.TrimPrefix(line, "why: "); why != line {
		r.kept = append(r.kept, why)
		if len(r.kept) > mostKept {
			r.kept = r.kept[1:]
		}
	} else if r.other.Len()+len(line) < mostRest {
		r.other.WriteString(line + "\n")
	}
	close(r.told)
	r.told = make(chan struct{})
}

// find waits for the reason of a line for some time, and answers nothing if it does not come.
func (r *reasons) find(input string, number int, patience time.Duration) string {
	head := fmt.Sprintf("%s line %d, ", input, number)
	last := time.After(patience)
	for {
		why, told := r.look(head)
		if why != "" {
			return why
		}
		select {
		case <-told:
		case <-last:
			return ""
		}
	}
}

// look answers a reason without what the refusal says already, its number and its name.
func (r *reasons) look(head string) (string, <-chan struct{}) {
	r.mu.Lock()
	defer r.mu.Unlock()
	for _, line := range r.kept {
		if why := strings.TrimPrefix(line, head); why != line {
			if _, after, found := strings.Cut(why, ": "); found {
				return after, r.told
			}
			return why, r.told
		}
	}
	return "", r.told
}

// ended waits until all lines are read.
func (r *reasons) ended() { <-r.done }

func (r *reasons) rest() string {
	r.mu.Lock()
	defer r.mu.Unlock()
	return r.other.String()
}
