// Package ocilog tells an error in the two ways of runc: on standard error, and in the file of --log, from which
// containerd, podman and docker take the reason that they show.
package ocilog

import (
	"encoding/json"
	"fmt"
	"io"
	"os"
	"time"
)

// Program begins each message.
const Program = "feulgama-oci"

// Report writes the fault to stderr and, if file is not empty, appends it to that file, in the given format.
func Report(stderr io.Writer, file, format string, fault error) {
	message := Program + ": " + fault.Error()
	fmt.Fprintln(stderr, message)
	if file == "" {
		return
	}
	write(stderr, file, line(format, "error", message, time.Now()))
}

// Note appends a remark to the file of the log, if there is one.
func Note(stderr io.Writer, file, format, remark string) {
	if file != "" {
		write(stderr, file, line(format, "info", Program+": "+remark, time.Now()))
	}
}

func write(stderr io.Writer, file, text string) {
	if err := appendLine(file, text); err != nil {
		fmt.Fprintf(stderr, "%s: write to the log: %v\n", Program, err)
	}
}

func line(format, level, message string, now time.Time) string {
	at := now.UTC().Format(time.RFC3339)
	if format == "json" {
		text, err := json.Marshal(map[string]string{"level": level, "msg": message, "time": at})
		if err == nil {
			return string(text) + "\n"
		}
	}
	return fmt.Sprintf("time=%q level=%s msg=%q\n", at, level, message)
}

func appendLine(file, text string) error {
	log, err := os.OpenFile(file, os.O_WRONLY|os.O_CREATE|os.O_APPEND, 0o644)
	if err != nil {
		return err
	}
	if _, err := log.WriteString(text); err != nil {
		log.Close()
		return err
	}
	return log.Close()
}
