package lines

import (
	"errors"
	"fmt"

	"github.com/containerd/containerd/errdefs"
)

// Numbers of refusals that adapters look for.
const (
	WrongStatus = 11
	Busy        = 12
	JournalFull = 15
	NoMemory    = 17
	BadConfig   = 10
)

// row is a refusal of the protocol, and its class in containerd.
type row struct {
	name  string
	class error
}

// refusals are the rows by number. The numbers and names are those of docs/PROTOCOL.md, "Refusals".
var refusals = map[int]row{
	1:  {"BadRequest", errdefs.ErrInvalidArgument},
	2:  {"BadId", errdefs.ErrInvalidArgument},
	3:  {"Exists", errdefs.ErrAlreadyExists},
	4:  {"NotFound", errdefs.ErrNotFound},
	5:  {"NoContent", errdefs.ErrNotFound},
	6:  {"InUse", errdefs.ErrFailedPrecondition},
	7:  {"BadModule", errdefs.ErrInvalidArgument},
	8:  {"Invalid", errdefs.ErrInvalidArgument},
	9:  {"Limit", errdefs.ErrInvalidArgument},
	10: {"BadConfig", errdefs.ErrInvalidArgument},
	11: {"WrongStatus", errdefs.ErrFailedPrecondition},
	12: {"Busy", errdefs.ErrFailedPrecondition},
	13: {"OutOfRange", errdefs.ErrInvalidArgument},
	14: {"TooMany", errdefs.ErrUnavailable},
	15: {"JournalFull", errdefs.ErrUnavailable},
	16: {"DigestConflict", errdefs.ErrAlreadyExists},
	17: {"NoMemory", errdefs.ErrUnavailable},
	18: {"BadText", errdefs.ErrInvalidArgument},
	19: {"Closed", errdefs.ErrUnavailable},
	20: {"JournalFault", errdefs.ErrUnknown},
	21: {"NoEntry", errdefs.ErrInvalidArgument},
	22: {"BadImport", errdefs.ErrInvalidArgument},
	23: {"SegmentOutOfBounds", errdefs.ErrInvalidArgument},
}

// Refusal is a request that was refused.
type Refusal struct {
	Number int
	Name   string
	Why    string // in words, if it is known
}

func (r *Refusal) Error() string {
	text := fmt.Sprintf("refused %d %s", r.Number, r.Name)
	if r.Why != "" {
		text += ": " + r.Why
	}
	return text
}

// Unwrap answers the class of the refusal in containerd.
func (r *Refusal) Unwrap() error {
	if known, ok := refusals[r.Number]; ok {
		return known.class
	}
	return errdefs.ErrUnknown
}

// IsRefused tells whether an error is the refusal of a number.
func IsRefused(err error, number int) bool {
	var refusal *Refusal
	return errors.As(err, &refusal) && refusal.Number == number
}
