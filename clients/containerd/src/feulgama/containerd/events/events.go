// Package events tells containerd what becomes of containers, each thing once and in its order, also when containerd is
// not there for some time.
package events

import (
	"context"
	"sync"
	"time"

	service "github.com/containerd/containerd/api/services/ttrpc/events/v1"
	"github.com/containerd/containerd/pkg/ttrpcutil"
	"github.com/containerd/typeurl"
	"github.com/sirupsen/logrus"
)

// Times of a queue.
const (
	sendTime  = 5 * time.Second // for one event
	firstRest = 50 * time.Millisecond
	mostRest  = 2 * time.Second
	closeTime = time.Second // for what is left at the end
)

// Queue sends events, one after the other.
type Queue struct {
	namespace string
	send      func(context.Context, *service.ForwardRequest) error
	mu        sync.Mutex
	waiting   []*service.Envelope
	more      chan struct{} // has one entry if some may wait
	closed    chan struct{}
	done      chan struct{}
}

// New makes a queue to the containerd of an address.
func New(address, namespace string) (*Queue, error) {
	client, err := ttrpcutil.NewClient(address)
	if err != nil {
		return nil, err
	}
	return start(namespace, func(ctx context.Context, request *service.ForwardRequest) error {
		return forward(ctx, client, request)
	}), nil
}

func start(namespace string, send func(context.Context, *service.ForwardRequest) error) *Queue {
	q := &Queue{
		namespace: namespace, send: send,
		more: make(chan struct{}, 1), closed: make(chan struct{}), done: make(chan struct{}),
	}
	go q.run()
	return q
}

// forward sends by the client's connection, and makes a new one for the next time if that has failed.
func forward(ctx context.Context, client *ttrpcutil.Client, request *service.ForwardRequest) error {
	events, err := client.EventsService()
	if err == nil {
		_, err = events.Forward(ctx, request)
	}
	if err != nil {
		_ = client.Reconnect() // the next attempt says it, if containerd is not there yet
	}
	return err
}

// Tell puts an event into the queue.
func (q *Queue) Tell(topic string, event interface{}) {
	value, err := typeurl.MarshalAny(event)
	if err != nil {
		logrus.WithError(err).Errorf("an event of %s cannot be written", topic)
		return
	}
	q.mu.Lock()
	q.waiting = append(q.waiting, &service.Envelope{
		Timestamp: time.Now(), Namespace: q.namespace, Topic: topic, Event: value,
	})
	q.mu.Unlock()
	select {
	case q.more <- struct{}{}:
	default:
	}
}

// Close sends what is left, if that does not take long, and ends the queue.
func (q *Queue) Close() {
	close(q.closed)
	select {
	case <-q.done:
	case <-time.After(closeTime):
	}
}

func (q *Queue) first() *service.Envelope {
	q.mu.Lock()
	defer q.mu.Unlock()
	if len(q.waiting) == 0 {
		return nil
	}
	return q.waiting[0]
}

func (q *Queue) run() {
	defer close(q.done)
	rest := firstRest
	for {
		event := q.first()
		if event == nil {
			select {
			case <-q.more:
				continue
			case <-q.closed:
				if q.first() == nil {
					return
				}
				continue
			}
		}
		if err := q.try(event); err != nil {
			logrus.WithError(err).Debug("containerd does not take an event")
			time.Sleep(rest)
			if rest *= 2; rest > mostRest {
				rest = mostRest
			}
			continue
		}
		rest = firstRest
		q.mu.Lock()
		q.waiting = q.waiting[1:]
		q.mu.Unlock()
	}
}

func (q *Queue) try(event *service.Envelope) error {
	ctx, cancel := context.WithTimeout(context.Background(), sendTime)
	defer cancel()
	return q.send(ctx, &service.ForwardRequest{Envelope: event})
}
