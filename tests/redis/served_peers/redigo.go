// Tests `resp serve --test-server` with redigo: redigo PORT. The server must have no key.
package main

import (
	"log"
	"os"
	"strconv"

	"github.com/gomodule/redigo/redis"
)

func holds(name string, got interface{}, problem error, wanted interface{}) {
	if problem != nil {
		log.Fatalf("%s: %v", name, problem)
	}
	if got != wanted {
		log.Fatalf("%s: %v", name, got)
	}
}

func connected(database int) redis.Conn {
	client, problem := redis.Dial("tcp", "127.0.0.1:"+os.Args[1], redis.DialDatabase(database), redis.DialClientName("go"))
	if problem != nil {
		log.Fatal(problem)
	}
	return client
}

func number(client redis.Conn, name string, wanted int, command string, words ...interface{}) {
	got, problem := redis.Int(client.Do(command, words...))
	holds(name, got, problem, wanted)
}

func text(client redis.Conn, name string, wanted string, command string, words ...interface{}) {
	got, problem := redis.String(client.Do(command, words...))
	holds(name, got, problem, wanted)
}

func main() {
	first := connected(0)
	text(first, "name", "go", "CLIENT", "GETNAME")
	text(first, "set", "OK", "SET", "key", "\x00\r\n\xff")
	text(first, "get", "\x00\r\n\xff", "GET", "key")
	if got, problem := first.Do("GET", "none"); got != nil || problem != nil {
		log.Fatalf("no value: %v %v", got, problem)
	}
	number(first, "exists", 2, "EXISTS", "key", "key", "none")
	number(first, "dbsize", 1, "DBSIZE")

	other := connected(5)
	number(other, "other database", 0, "EXISTS", "key")
	for part := 0; part < 500; part++ {
		if other.Send("SET", part, part) != nil || other.Send("GET", part) != nil {
			log.Fatal("nothing was sent")
		}
	}
	if problem := other.Flush(); problem != nil {
		log.Fatal(problem)
	}
	for part := 0; part < 500; part++ {
		said, problem := redis.String(other.Receive())
		holds("pipeline", said, problem, "OK")
		said, problem = redis.String(other.Receive())
		holds("pipeline", said, problem, strconv.Itoa(part))
	}
	number(other, "keys", 500, "DBSIZE")
	number(other, "del", 2, "DEL", 0, 1, "none")
	if _, problem := other.Do("SELECT", 16); problem == nil || problem.Error() != "ERR DB index is out of range" {
		log.Fatalf("database 16: %v", problem)
	}
	text(other, "flushdb", "OK", "FLUSHDB")
	number(other, "other database", 0, "DBSIZE")
	number(first, "first database", 1, "DBSIZE")
	text(first, "flushall", "OK", "FLUSHALL")
	number(first, "nothing", 0, "DBSIZE")
}
