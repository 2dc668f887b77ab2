package lines

import (
	"errors"
	"fmt"
	"os"
	"regexp"
	"strconv"
	"testing"

	"github.com/containerd/containerd/errdefs"
)

// The table of the page is the list of all refusals.
func TestTheTableIsThatOfThePage(t *testing.T) {
	page, err := os.ReadFile("../../../../../docs/PROTOCOL.md")
	if err != nil {
		t.Fatal(err)
	}
	found := regexp.MustCompile("(?m)^\\| (\\d+) \\| `(\\w+)` \\|").FindAllStringSubmatch(string(page), -1)
	if len(found) != len(refusals) {
		t.Errorf("the page has %d refusals, and the table %d", len(found), len(refusals))
	}
	for _, words := range found {
		number, _ := strconv.Atoi(words[1])
		if refusals[number].name != words[2] {
			t.Errorf("%d is %s on the page, and %s in the table", number, words[2], refusals[number].name)
		}
	}
}

// What containerd gets over the wire, and reads back, is of the same class.
func TestClassesThereAndBack(t *testing.T) {
	for number, known := range refusals {
		refusal := fmt.Errorf("create: %w", &Refusal{Number: number, Name: known.name, Why: "so"})
		back := errdefs.FromGRPC(errdefs.ToGRPC(refusal))
		if !errors.Is(back, known.class) {
			t.Errorf("%d %s comes back as %v", number, known.name, back)
		}
	}
}

func TestClassesThatContainerdLooksFor(t *testing.T) {
	for number, is := range map[int]func(error) bool{
		4: errdefs.IsNotFound, 3: errdefs.IsAlreadyExists, 11: errdefs.IsFailedPrecondition, 7: errdefs.IsInvalidArgument,
		10: errdefs.IsInvalidArgument, 15: errdefs.IsUnavailable,
	} {
		if err := error(&Refusal{Number: number}); !is(err) {
			t.Errorf("%d is of another class", number)
		}
	}
	if !errors.Is(&Refusal{Number: 99}, errdefs.ErrUnknown) {
		t.Error("a number that nobody knows is known")
	}
}
