// Package app is feulgama-oci: it looks at the command line, rewrites the config of a module's container, and becomes
// runc.
package app

import (
	"fmt"
	"os"
	"os/exec"

	"golang.org/x/sys/unix"

	"feulgama/oci/cmdline"
	"feulgama/oci/config"
	"feulgama/oci/container"
	"feulgama/oci/firstprocess"
	"feulgama/oci/lowering"
	"feulgama/oci/ocilog"
	"feulgama/oci/programs"
	"feulgama/oci/version"
)

// Main answers the exit status for the words after the name of the program. If all goes well it becomes runc, and
// does not return.
func Main(words []string) int {
	if len(words) > 0 && words[0] == container.Supervise {
		return firstprocess.Run(words[1:], os.Environ())
	}
	line, err := cmdline.Parse(words)
	status := 1
	if err == nil {
		status, err = perform(line, words)
	}
	if err != nil {
		ocilog.Report(os.Stderr, line.Log, line.LogFormat, err)
	}
	return status
}

// perform answers the exit status of a command. Most commands of runc do not return but with an error.
func perform(line cmdline.Line, words []string) (int, error) {
	switch {
	case line.Version:
		return failed(showVersion())
	case line.Command == "" && !line.Help:
		fmt.Fprint(os.Stderr, "feulgama-oci: no command\n\n", usage)
		return 2, nil
	case line.Command == "" || line.Command == "help" && len(line.Rest) == 0:
		fmt.Print(usage)
		return 0, nil
	case line.Command == "start":
		return start(line, words)
	}
	if line.Starts() && !line.Help {
		if err := prepare(line); err != nil {
			return 1, err
		}
	}
	return failed(becomeRunc(words))
}

// failed is the status of what has failed or not.
func failed(err error) (int, error) {
	if err != nil {
		return 1, err
	}
	return 0, nil
}

// prepare rewrites the config of a bundle, if its program is a module.
func prepare(line cmdline.Line) error {
	c, err := config.Load(line.Bundle)
	if err != nil {
		return err
	}
	module, err := container.Find(c)
	if err != nil || module == nil {
		return err
	}
	own, err := os.Executable()
	if err != nil {
		return fmt.Errorf("find the file of feulgama-oci: %w", err)
	}
	shim, err := programs.Shim(own)
	if err != nil {
		return err
	}
	if err := lower(c, module, line); err != nil {
		return err
	}
	if err := container.Contain(c, module, container.Programs{First: own, Shim: shim}); err != nil {
		return err
	}
	return c.Save()
}

// lower translates the module, if the config asks for it, and says so in the log.
func lower(c *config.Config, module *container.Module, line cmdline.Line) error {
	wanted, err := lowering.Wanted(c.Annotation(lowering.Annotation))
	if err != nil || !wanted {
		return err
	}
	found, err := lowering.Lower(module.Content)
	if err != nil {
		return err
	}
	module.Content = found.Content
	ocilog.Note(os.Stderr, line.Log, line.LogFormat, fmt.Sprintf("%s was lowered: %s", module.Words[0], found.Replaced))
	return nil
}

func becomeRunc(words []string) error {
	runc, err := programs.Runc()
	if err != nil {
		return err
	}
	err = unix.Exec(runc, append([]string{runc}, words...), os.Environ())
	return fmt.Errorf("become %s: %w", runc, err)
}

// showVersion shows the own version, and that of runc, from which callers read what the runtime can do.
func showVersion() error {
	fmt.Println("feulgama-oci version " + version.Number)
	runc, err := programs.Runc()
	if err != nil {
		return err
	}
	command := exec.Command(runc, "--version")
	command.Stdout, command.Stderr = os.Stdout, os.Stderr
	if err := command.Run(); err != nil {
		return fmt.Errorf("run %s --version: %w", runc, err)
	}
	return nil
}
