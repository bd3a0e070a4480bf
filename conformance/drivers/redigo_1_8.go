// redigo 1.8 (golang-github-gomodule-redigo-dev): Conn.Receive.
// needs: go /usr/share/gocode/src/github.com/gomodule/redigo/redis/conn.go
// make: env GO111MODULE=off GOPATH=/usr/share/gocode GOCACHE={OUT}.cache go build -o {OUT} {FILE}
// run: {OUT}
package main

import (
	"bufio"
	"encoding/hex"
	"encoding/json"
	"errors"
	"fmt"
	"io"
	"net"
	"os"
	"strings"
	"time"

	"github.com/gomodule/redigo/redis"
)

var dry = errors.New("dry")

// A connection of pieces, of which one call reads one.
type pieces struct {
	net.Conn
	left   []string
	isOver bool
}

func (p *pieces) Read(room []byte) (int, error) {
	if len(p.left) == 0 {
		if p.isOver {
			return 0, io.EOF
		}
		return 0, dry
	}
	n := copy(room, p.left[0])
	if p.left[0] = p.left[0][n:]; p.left[0] == "" {
		p.left = p.left[1:]
	}
	return n, nil
}

func (p *pieces) SetReadDeadline(time.Time) error { return nil }
func (p *pieces) Close() error                    { return nil }

func latin1(s string) string {
	runes := make([]rune, len(s))
	for i := 0; i < len(s); i++ {
		runes[i] = rune(s[i])
	}
	return string(runes)
}

func told(v interface{}) []interface{} {
	switch v := v.(type) {
	case nil:
		return []interface{}{"null"}
	case int64:
		return []interface{}{"integer", fmt.Sprint(v)}
	case redis.Error:
		return []interface{}{"error", latin1(string(v))}
	case string:
		return []interface{}{"simple", latin1(v)}
	case []byte:
		return []interface{}{"bulk", latin1(string(v))}
	}
	list := []interface{}{}
	for _, item := range v.([]interface{}) {
		list = append(list, told(item))
	}
	return []interface{}{"array", list}
}

func main() {
	if len(os.Args) > 1 {
		fmt.Println(`{"parser": "redigo 1.8.3", "profiles": ["resp2"], "same": [["null", "nullbulk", "nullarray"]]}`)
		return
	}
	lines := bufio.NewReaderSize(os.Stdin, 1<<20)
	for {
		line, err := lines.ReadString('\n')
		if err != nil {
			return
		}
		words := strings.Split(strings.TrimRight(line, "\n"), " ")
		from := &pieces{}
		for _, piece := range strings.Split(words[2], ",") {
			if piece == "end" {
				from.isOver = true
			} else if bytes, _ := hex.DecodeString(piece); len(bytes) > 0 {
				from.left = append(from.left, string(bytes))
			}
		}
		values, end := judged(from)
		said, _ := json.Marshal(map[string]interface{}{"id": words[0], "values": values, "end": end})
		fmt.Println(string(said))
	}
}

func judged(from *pieces) ([]interface{}, string) {
	values := []interface{}{}
	conn := redis.NewConn(from, 0, 0)
	for {
		value, err := conn.Receive()
		if failed, is := err.(redis.Error); is {
			value, err = failed, nil
		}
		if err == dry || (err == io.EOF && from.isOver) {
			return values, "more"
		}
		if err != nil {
			return values, "error"
		}
		values = append(values, told(value))
	}
}
