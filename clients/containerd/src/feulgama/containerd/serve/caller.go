package serve

import (
	"bufio"
	"errors"
	"io"
	"os"
	"sync"

	"feulgama/lines"
)

// caller sends one request after the other, each when the one before has been answered.
type caller struct {
	input   string
	write   *os.File
	mu      sync.Mutex
	sent    int // lines
	replies chan []byte
}

func newCaller(ends pair) *caller {
	return &caller{input: ends.input, write: ends.write, replies: make(chan []byte, 1)}
}

// begin begins to read replies, and calls ended when no more come.
func (c *caller) begin(stream io.ReadCloser, ended func()) {
	go func() {
		defer ended()
		defer close(c.replies)
		defer stream.Close()
		c.read(stream)
	}()
}

// read hands replies on until the stream ends, or has a line that nobody would write.
func (c *caller) read(stream io.Reader) {
	reader := bufio.NewReader(stream)
	for {
		line, err := readLine(reader, lines.MostReply)
		if err != nil {
			return
		}
		c.replies <- line
	}
}

var errLong = errors.New("a line without an end")

// readLine reads a line of at most so many bytes.
func readLine(reader *bufio.Reader, most int) ([]byte, error) {
	var line []byte
	for {
		part, err := reader.ReadSlice('\n')
		line = append(line, part...)
		switch {
		case err == nil:
			return line[:len(line)-1], nil
		case !errors.Is(err, bufio.ErrBufferFull):
			return nil, err
		case len(line) > most:
			return nil, errLong
		}
	}
}

// ask answers the reply to a request, and the number of its line.
func (c *caller) ask(request []byte) ([]byte, int, error) {
	c.mu.Lock()
	defer c.mu.Unlock()
	if _, err := c.write.Write(request); err != nil {
		return nil, 0, ErrEnded
	}
	c.sent++
	reply, ok := <-c.replies
	if !ok {
		return nil, 0, ErrEnded
	}
	return reply, c.sent, nil
}

func (c *caller) close() {
	c.write.Close()
}
