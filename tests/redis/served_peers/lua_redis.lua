-- Tests `resp serve --test-server` with lua-redis: lua_redis.lua PORT. The server must have no key.
local redis = require("redis")
local port = tonumber(arg[1])

local function holds(name, got, wanted)
    if got ~= wanted then
        error(name .. ": " .. tostring(got))
    end
end

local first = redis.connect("127.0.0.1", port)
local bytes = "\0\r\n\255"
holds("ping", first:ping(), true)
holds("echo", first:echo("word"), "word")
holds("set", first:set("key", bytes), true)
holds("get", first:get("key"), bytes)
holds("no value", first:get("none"), nil)
holds("exists", first:exists("key"), true)
holds("dbsize", first:dbsize(), 1)

local other = redis.connect("127.0.0.1", port)
holds("select", other:select(5), true)
holds("other database", other:get("key"), nil)
local said = other:pipeline(function(pipeline)
    for number = 0, 499 do
        pipeline:set("key:" .. number, number)
        pipeline:get("key:" .. number)
    end
end)
for number = 0, 499 do
    holds("pipeline", said[2 * number + 1], true)
    holds("pipeline", said[2 * number + 2], tostring(number))
end
holds("keys", other:dbsize(), 500)
holds("del", other:del("key:0", "key:1", "none"), 2)
local selected, problem = pcall(other.select, other, 16)
holds("database 16", selected, false)
holds("error", tostring(problem):find("ERR DB index is out of range", 1, true) ~= nil, true)
holds("flushdb", other:flushdb(), true)
holds("databases", other:dbsize() .. first:dbsize(), "01")
holds("flushall", first:flushall(), true)
holds("nothing", first:dbsize(), 0)
first:quit()
