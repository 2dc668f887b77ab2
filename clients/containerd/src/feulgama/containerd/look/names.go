package look

import (
	"encoding/binary"
	"errors"
	"fmt"
	"strings"
	"unicode"
)

// Names are what a module calls its functions and their locals.
type Names struct {
	functions map[uint32]string
	locals    map[uint32]map[uint32]string
}

// Sections of a module, and of its section `name`.
const (
	custom, imports, exports = 0, 2, 7
	functionNames            = 1
	localNames               = 2
)

var errShort = errors.New("the section ends too soon")

// NamesOf reads the names of a module: from its section `name`, else from exports and imports. What has a fault is read
// up to the fault: the module was not made by somebody whom the shim trusts, and names are for a person only.
func NamesOf(module []byte) *Names {
	n := &Names{functions: map[uint32]string{}, locals: map[uint32]map[uint32]string{}}
	if len(module) < 8 {
		return n
	}
	var named []byte
	for r := (reader{module[8:]}); len(r.rest) > 0; {
		kind, err := r.byte()
		if err != nil {
			break
		}
		part, err := r.part()
		if err != nil {
			break
		}
		switch kind {
		case imports:
			_ = n.readImports(part)
		case exports:
			_ = n.readExports(part)
		case custom:
			if name, err := part.name(); err == nil && name == "name" {
				named = part.rest
			}
		}
	}
	_ = n.readNames(reader{named})
	return n
}

func (n *Names) readImports(r reader) error {
	index := uint32(0)
	return r.each(func() error {
		from, err := r.name()
		if err != nil {
			return err
		}
		name, err := r.name()
		if err != nil {
			return err
		}
		kind, err := r.byte()
		if err != nil {
			return err
		}
		if kind != 0 {
			return errors.New("an import is no function") // the profile has no others
		}
		if _, err := r.number(); err != nil {
			return err
		}
		n.functions[index] = from + "." + name
		index++
		return nil
	})
}

func (n *Names) readExports(r reader) error {
	return r.each(func() error {
		name, err := r.name()
		if err != nil {
			return err
		}
		kind, err := r.byte()
		if err != nil {
			return err
		}
		index, err := r.number()
		if err == nil && kind == 0 {
			n.functions[index] = name
		}
		return err
	})
}

func (n *Names) readNames(r reader) error {
	for len(r.rest) > 0 {
		kind, err := r.byte()
		if err != nil {
			return err
		}
		part, err := r.part()
		if err != nil {
			return err
		}
		switch kind {
		case functionNames:
			err = part.names(n.functions)
		case localNames:
			err = part.each(func() error {
				index, err := part.number()
				if err != nil {
					return err
				}
				n.locals[index] = map[uint32]string{}
				return part.names(n.locals[index])
			})
		}
		if err != nil {
			return err
		}
	}
	return nil
}

// Function is what a function is called.
func (n *Names) Function(index uint32) string {
	if name := n.functions[index]; name != "" {
		return name
	}
	return fmt.Sprintf("func%d", index)
}

// Local is what a local of a function is called.
func (n *Names) Local(function, index uint32) string {
	if name := n.locals[function][index]; name != "" {
		return name
	}
	return fmt.Sprintf("local%d", index)
}

// reader reads a section.
type reader struct{ rest []byte }

func (r *reader) byte() (byte, error) {
	if len(r.rest) == 0 {
		return 0, errShort
	}
	first := r.rest[0]
	r.rest = r.rest[1:]
	return first, nil
}

func (r *reader) number() (uint32, error) {
	value, length := binary.Uvarint(r.rest)
	if length <= 0 || value > 1<<32-1 {
		return 0, errShort
	}
	r.rest = r.rest[length:]
	return uint32(value), nil
}

func (r *reader) part() (reader, error) {
	length, err := r.number()
	if err != nil || uint64(length) > uint64(len(r.rest)) {
		return reader{}, errShort
	}
	part := reader{r.rest[:length]}
	r.rest = r.rest[length:]
	return part, nil
}

// name is a name without characters that a terminal would obey.
func (r *reader) name() (string, error) {
	part, err := r.part()
	if err != nil {
		return "", err
	}
	return strings.Map(func(letter rune) rune {
		if !unicode.IsPrint(letter) {
			return '?'
		}
		return letter
	}, string(part.rest)), nil
}

// each calls take for each entry of a vector.
func (r *reader) each(take func() error) error {
	count, err := r.number()
	for ; err == nil && count > 0; count-- {
		err = take()
	}
	return err
}

// names reads a map of names.
func (r *reader) names(into map[uint32]string) error {
	return r.each(func() error {
		index, err := r.number()
		if err != nil {
			return err
		}
		name, err := r.name()
		if err == nil && name != "" {
			into[index] = name
		}
		return err
	})
}
