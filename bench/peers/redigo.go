// Measures redigo: receives the replies on standard input as Go values, and prints the number of replies.
package main

import (
	"fmt"
	"io"
	"net"
	"os"
	"time"

	"github.com/gomodule/redigo/redis"
)

// input is a connection that reads from standard input.
type input struct{}

func (input) Read(b []byte) (int, error)       { return os.Stdin.Read(b) }
func (input) Write(b []byte) (int, error)      { return len(b), nil }
func (input) Close() error                     { return nil }
func (input) LocalAddr() net.Addr              { return nil }
func (input) RemoteAddr() net.Addr             { return nil }
func (input) SetDeadline(time.Time) error      { return nil }
func (input) SetReadDeadline(time.Time) error  { return nil }
func (input) SetWriteDeadline(time.Time) error { return nil }

func main() {
	connection := redis.NewConn(input{}, 0, 0)
	replies := 0
	for {
		_, err := connection.Receive()
		if err == io.EOF {
			break
		}
		if err != nil {
			fmt.Fprintln(os.Stderr, err)
			os.Exit(1)
		}
		replies++
	}
	fmt.Println(replies)
}
