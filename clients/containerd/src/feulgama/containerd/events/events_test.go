package events

import (
	"context"
	"errors"
	"fmt"
	"reflect"
	"testing"
	"time"

	api "github.com/containerd/containerd/api/events"
	service "github.com/containerd/containerd/api/services/ttrpc/events/v1"
)

// Events come in their order and once each, although containerd does not take the first ones for some time.
func TestOrder(t *testing.T) {
	var got []string
	fails := 2
	q := start("here", func(_ context.Context, request *service.ForwardRequest) error {
		if fails > 0 {
			fails--
			return errors.New("nobody is there")
		}
		if request.Envelope.Namespace != "here" {
			t.Errorf("namespace %s", request.Envelope.Namespace)
		}
		got = append(got, request.Envelope.Topic)
		return nil
	})
	var want []string
	for number := 0; number < 100; number++ {
		topic := fmt.Sprintf("/tasks/%d", number)
		want = append(want, topic)
		q.Tell(topic, &api.TaskStart{ContainerID: "one"})
	}
	<-ended(q)
	if !reflect.DeepEqual(got, want) {
		t.Errorf("%v", got)
	}
}

// ended closes the queue, and waits until all is sent.
func ended(q *Queue) <-chan struct{} {
	q.Close()
	return q.done
}

func TestTheEndIsNotHeldUpByContainerd(t *testing.T) {
	q := start("here", func(context.Context, *service.ForwardRequest) error { return errors.New("nobody is there") })
	q.Tell("/tasks/start", &api.TaskStart{ContainerID: "one"})
	closed := make(chan struct{})
	go func() { q.Close(); close(closed) }()
	done := time.AfterFunc(time.Minute, func() { panic("it does not end") })
	<-closed
	done.Stop()
	if q.first() == nil {
		t.Error("an event that nobody took is gone")
	}
}
