// Tests `resp proxy` in front of redis-server with redigo: redigo PORT. Twenty goroutines take connections from a pool and send
// pipelines, and each reply is compared with its command.
package main

import (
	"fmt"
	"log"
	"os"
	"sync"

	"github.com/gomodule/redigo/redis"
)

const (
	workers  = 20
	turns    = 50
	pipeline = 40
)

func pool(options ...redis.DialOption) *redis.Pool {
	return &redis.Pool{MaxIdle: 10, MaxActive: 30, Wait: true, Dial: func() (redis.Conn, error) {
		return redis.Dial("tcp", "127.0.0.1:"+os.Args[1], options...)
	}}
}

func holds(name string, got string, problem error, wanted string) {
	if problem != nil || got != wanted {
		log.Fatalf("%s: %q in place of %q, %v", name, got, wanted, problem)
	}
}

// Sends SET and GET of keys that name the goroutine, the turn and the place, and compares the replies.
func pipelines(connections *redis.Pool, worker int) {
	for turn := 0; turn < turns; turn++ {
		client := connections.Get()
		for part := 0; part < pipeline; part++ {
			key := fmt.Sprintf("redigo:%d:%d:%d", worker, turn, part)
			if client.Send("SET", key, key) != nil || client.Send("GET", key) != nil {
				log.Fatal("nothing was sent")
			}
		}
		if problem := client.Flush(); problem != nil {
			log.Fatal(problem)
		}
		for part := 0; part < pipeline; part++ {
			key := fmt.Sprintf("redigo:%d:%d:%d", worker, turn, part)
			said, problem := redis.String(client.Receive())
			holds("SET", said, problem, "OK")
			said, problem = redis.String(client.Receive())
			holds("GET", said, problem, key)
		}
		client.Close()
	}
}

// A transaction has a connection of its own, and another database is another setting.
func transaction(connections *redis.Pool) {
	client := connections.Get()
	defer client.Close()
	for _, words := range [][]interface{}{{"SET", "redigo:n", 1}, {"INCRBY", "redigo:n", 41}} {
		if _, problem := client.Do(words[0].(string), words[1:]...); problem != nil {
			log.Fatal(problem)
		}
	}
	client.Send("MULTI")
	client.Send("INCR", "redigo:n")
	client.Send("GET", "redigo:n")
	said, problem := redis.Ints(client.Do("EXEC"))
	holds("EXEC", fmt.Sprint(said), problem, "[43 43]")
}

func main() {
	first, other := pool(), pool(redis.DialDatabase(3))
	var group sync.WaitGroup
	for worker := 0; worker < workers; worker++ {
		group.Add(1)
		go func(worker int) {
			defer group.Done()
			pipelines(first, worker)
		}(worker)
	}
	group.Wait()
	transaction(first)
	client := other.Get()
	said, problem := redis.String(client.Do("SET", "redigo:0:0:0", "three"))
	holds("SET of database 3", said, problem, "OK")
	said, problem = redis.String(first.Get().Do("GET", "redigo:0:0:0"))
	holds("GET of database 0", said, problem, "redigo:0:0:0")
	said, problem = redis.String(client.Do("GET", "redigo:0:0:0"))
	holds("GET of database 3", said, problem, "three")
	if _, problem := client.Do("LPUSH", "redigo:0:0:0", "x"); problem == nil ||
		problem.Error() != "WRONGTYPE Operation against a key holding the wrong kind of value" {
		log.Fatalf("an error reply: %v", problem)
	}
}
