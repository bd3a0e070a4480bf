# Tests `resp serve --test-server` with redis-rb: redis_rb.rb PORT. The server must have no key.
require "redis"

port = Integer(ARGV[0])

def holds(name, got, wanted)
  abort "#{name}: #{got.inspect}" unless got == wanted
end

first = Redis.new(host: "127.0.0.1", port: port, id: "ruby")
bytes = "\x00\r\n\xff".b
holds "set", first.set("key", bytes), "OK"
holds "get", first.get("key").b, bytes
holds "no value", first.get("none"), nil
holds "exists", first.exists("key", "key", "none"), 2
holds "dbsize", first.dbsize, 1

other = Redis.new(host: "127.0.0.1", port: port, db: 5)
holds "other database", other.get("key"), nil
said = other.pipelined do |pipeline|
  500.times do |number|
    pipeline.set("key:#{number}", number)
    pipeline.get("key:#{number}")
  end
end
holds "pipeline", said, (0...500).flat_map { |number| ["OK", number.to_s] }
holds "keys", other.dbsize, 500
holds "only if absent", other.set("key:0", "x", nx: true), false
holds "del", other.del("key:0", "key:1", "none"), 2
begin
  other.select(16)
  abort "database 16 was selected"
rescue Redis::CommandError => error
  holds "error", error.message, "ERR DB index is out of range"
end
holds "flushdb", other.flushdb, "OK"
holds "databases", [other.dbsize, first.dbsize], [0, 1]
holds "flushall", first.flushall, "OK"
holds "nothing", first.dbsize, 0
holds "quit", first.quit, "OK"
