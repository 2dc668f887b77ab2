// Package cmdline reads the command line of an OCI runtime, in the form that runc takes, as far as feulgama-oci has
// to look at it. Everything else goes to runc as it is.
package cmdline

import (
	"fmt"
	"strings"
)

// Line is what a command line says to feulgama-oci.
type Line struct {
	Command   string   // the first word that is no option; empty if there is none
	Rest      []string // the words after Command
	Bundle    string   // the folder of the bundle; of create and run only
	Log       string   // the file for errors, empty if none is named
	LogFormat string   // json or text
	Help      bool     // --help before a command
	Version   bool     // --version before a command
}

// options says of each option of runc whether a value follows it.
type options map[string]bool

var global = options{
	"root": true, "log": true, "log-format": true, "criu": true, "rootless": true,
	"debug": false, "systemd-cgroup": false, "help": false, "h": false, "version": false, "v": false,
}

var start = options{
	"bundle": true, "b": true, "console-socket": true, "pid-file": true, "preserve-fds": true, "pidfd-socket": true,
	"no-pivot": false, "no-new-keyring": false, "help": false, "h": false,
	"detach": false, "d": false, "keep": false, "no-subreaper": false,
}

// Starts tells whether the command starts a container from a bundle.
func (l Line) Starts() bool {
	return l.Command == "create" || l.Command == "run"
}

// Parse reads the words after the name of the program. The line is as complete as it can be also with an error, so
// that the error can go to the file of --log.
func Parse(words []string) (Line, error) {
	line := Line{Bundle: ".", LogFormat: "text"}
	rest, err := scan(words, global, func(name, value string) {
		switch name {
		case "log":
			line.Log = value
		case "log-format":
			line.LogFormat = value
		case "help", "h":
			line.Help = true
		case "version", "v":
			line.Version = true
		}
	})
	if err != nil || len(rest) == 0 {
		return line, err
	}
	line.Command, line.Rest = rest[0], rest[1:]
	if line.Starts() {
		err = line.parseStart()
	}
	return line, err
}

// parseStart reads the options of create and run, which may also follow the id of the container.
func (l *Line) parseStart() error {
	for words := l.Rest; len(words) > 0; words = words[1:] {
		rest, err := scan(words, start, func(name, value string) {
			switch name {
			case "bundle", "b":
				l.Bundle = value
			case "help", "h":
				l.Help = true
			}
		})
		if err != nil {
			return fmt.Errorf("%s: %w", l.Command, err)
		}
		if len(rest) == 0 {
			return nil
		}
		words = rest
	}
	return nil
}

// scan calls found for each option at the front of words, and answers what follows them.
func scan(words []string, known options, found func(name, value string)) ([]string, error) {
	for len(words) > 0 {
		word := words[0]
		if word == "--" {
			return words[1:], nil
		}
		if len(word) < 2 || word[0] != '-' {
			return words, nil
		}
		words = words[1:]
		name, value, has := strings.Cut(strings.TrimPrefix(word[1:], "-"), "=")
		takes, ok := known[name]
		if !ok {
			return nil, fmt.Errorf("unknown option %s: options of runc 1.1 are known, before and after a command", word)
		}
		if takes && !has {
			if len(words) == 0 {
				return nil, fmt.Errorf("option %s needs a value", word)
			}
			value, words = words[0], words[1:]
		}
		if !takes && has && value == "false" {
			continue
		}
		found(name, value)
	}
	return nil, nil
}
