// go-redis 5.2 (golang-gopkg-redis.v5-dev): Client.Process.
// needs: go /usr/share/gocode/src/gopkg.in/redis.v5/redis.go
// make: env GO111MODULE=off GOPATH=/usr/share/gocode GOCACHE={OUT}.cache go build -o {OUT} {FILE}
// run: {OUT}
package main

import (
	"bufio"
	"encoding/hex"
	"encoding/json"
	"errors"
	"fmt"
	"io"
	"net"
	"os"
	"strings"
	"time"

	"gopkg.in/redis.v5"
)

var dry = errors.New("dry")

// A connection of pieces, of which one call reads one.
type pieces struct {
	left   []string
	isOver bool
}

func (p *pieces) Read(room []byte) (int, error) {
	if len(p.left) == 0 {
		if p.isOver {
			return 0, io.EOF
		}
		return 0, dry
	}
	n := copy(room, p.left[0])
	if p.left[0] = p.left[0][n:]; p.left[0] == "" {
		p.left = p.left[1:]
	}
	return n, nil
}
func (p *pieces) Write(text []byte) (int, error)   { return len(text), nil }
func (p *pieces) Close() error                     { return nil }
func (p *pieces) LocalAddr() net.Addr              { return nil }
func (p *pieces) RemoteAddr() net.Addr             { return &net.TCPAddr{} }
func (p *pieces) SetDeadline(time.Time) error      { return nil }
func (p *pieces) SetReadDeadline(time.Time) error  { return nil }
func (p *pieces) SetWriteDeadline(time.Time) error { return nil }

func latin1(s string) string {
	runes := make([]rune, len(s))
	for i := 0; i < len(s); i++ {
		runes[i] = rune(s[i])
	}
	return string(runes)
}

func told(v interface{}) []interface{} {
	switch v := v.(type) {
	case nil:
		return []interface{}{"null"}
	case int64:
		return []interface{}{"integer", fmt.Sprint(v)}
	case error:
		return []interface{}{"error", latin1(v.Error())}
	case string:
		return []interface{}{"bulk", latin1(v)}
	}
	list := []interface{}{}
	for _, item := range v.([]interface{}) {
		list = append(list, told(item))
	}
	return []interface{}{"array", list}
}

func judged(from *pieces) ([]interface{}, string) {
	values, count := []interface{}{}, 0
	client := redis.NewClient(&redis.Options{PoolSize: 1, IdleCheckFrequency: -1, MaxRetries: 0, Dialer: func() (net.Conn, error) {
		if count++; count > 1 {
			return nil, errors.New("closed")
		}
		return from, nil
	}})
	// After a single command the client closes a connection that has more bytes. In a pipeline it reads them.
	pipe, cmds := client.Pipeline(), []*redis.Cmd{}
	for i := 0; i < 220; i++ {
		cmd := redis.NewCmd("ECHO", "x")
		cmds = append(cmds, cmd)
		pipe.Process(cmd)
	}
	pipe.Exec()
	for _, cmd := range cmds {
		err := cmd.Err()
		switch {
		case err == nil:
			values = append(values, told(cmd.Val()))
		case err == redis.Nil:
			values = append(values, told(nil))
		case err == dry || err == io.EOF:
			return values, "more"
		case fmt.Sprintf("%T", err) == "internal.RedisError":
			values = append(values, told(err))
		default:
			return values, "error"
		}
	}
	return values, "more"
}

func main() {
	if len(os.Args) > 1 {
		fmt.Println(`{"parser": "go-redis 5.2.9", "profiles": ["resp2"], "same": [["null", "nullbulk", "nullarray"], ["bulk", "simple"]]}`)
		return
	}
	lines := bufio.NewReaderSize(os.Stdin, 1<<20)
	for {
		line, err := lines.ReadString('\n')
		if err != nil {
			return
		}
		words := strings.Split(strings.TrimRight(line, "\n"), " ")
		from := &pieces{}
		for _, piece := range strings.Split(words[2], ",") {
			if piece == "end" {
				from.isOver = true
			} else if bytes, _ := hex.DecodeString(piece); len(bytes) > 0 {
				from.left = append(from.left, string(bytes))
			}
		}
		values, end := judged(from)
		said, _ := json.Marshal(map[string]interface{}{"id": words[0], "values": values, "end": end})
		fmt.Println(string(said))
	}
}
