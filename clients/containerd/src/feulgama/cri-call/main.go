// Cri-call makes one call to a CRI server, as a kubelet does, for the tests: Debian has no client of CRI.
//
//	cri-call SOCKET METHOD JSON
package main

import (
	"context"
	"encoding/json"
	"fmt"
	"net"
	"os"
	"time"

	"google.golang.org/grpc"
)

const most = time.Minute

func main() {
	if len(os.Args) != 4 {
		fmt.Fprintln(os.Stderr, "cri-call SOCKET METHOD JSON")
		os.Exit(2)
	}
	if err := perform(os.Args[1], os.Args[2], os.Args[3]); err != nil {
		fmt.Fprintln(os.Stderr, err)
		os.Exit(1)
	}
}

func perform(socket, method, text string) error {
	made, known := calls[method]
	if !known {
		return fmt.Errorf("%s is not known", method)
	}
	wanted := made()
	if err := json.Unmarshal([]byte(text), wanted.request); err != nil {
		return fmt.Errorf("read the request: %w", err)
	}
	ctx, cancel := context.WithTimeout(context.Background(), most)
	defer cancel()
	dial := func(ctx context.Context, path string) (net.Conn, error) {
		return (&net.Dialer{}).DialContext(ctx, "unix", path)
	}
	connection, err := grpc.DialContext(ctx, socket, grpc.WithInsecure(), grpc.WithContextDialer(dial), grpc.WithBlock())
	if err != nil {
		return err
	}
	defer connection.Close()
	if err := connection.Invoke(ctx, "/runtime.v1.RuntimeService/"+method, wanted.request, wanted.reply); err != nil {
		return err
	}
	return json.NewEncoder(os.Stdout).Encode(wanted.reply)
}
