package task

import (
	"sync"
	"time"
)

// ending is how something ended, once it has.
type ending struct {
	once   sync.Once
	done   chan struct{}
	status uint32
	at     time.Time
}

func newEnding() *ending {
	return &ending{done: make(chan struct{})}
}

// set says how and when it ended. Only the first call counts.
func (e *ending) set(status uint32, at time.Time) {
	e.once.Do(func() {
		e.status, e.at = status, at
		close(e.done)
	})
}

// is tells whether it has ended.
func (e *ending) is() bool {
	select {
	case <-e.done:
		return true
	default:
		return false
	}
}

// told answers status and time, which are none before the end.
func (e *ending) told() (uint32, time.Time) {
	if !e.is() {
		return 0, time.Time{}
	}
	return e.status, e.at
}
