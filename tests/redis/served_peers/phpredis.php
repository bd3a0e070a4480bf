<?php
// Tests `resp serve --test-server` with phpredis: phpredis.php PORT. The server must have no key.

function holds(string $name, mixed $got, mixed $wanted): void
{
    if ($got !== $wanted) {
        fwrite(STDERR, "$name: " . var_export($got, true) . "\n");
        exit(1);
    }
}

function connected(int $database): Redis
{
    global $argv;
    $client = new Redis();
    $client->connect("127.0.0.1", (int) $argv[1]);
    holds("select", $client->select($database), true);
    return $client;
}

$first = connected(0);
$bytes = "\x00\r\n\xff";
holds("set", $first->set("key", $bytes), true);
holds("get", $first->get("key"), $bytes);
holds("no value", $first->get("none"), false);
holds("exists", $first->exists("key", "key", "none"), 2);
holds("dbsize", $first->dbSize(), 1);
holds("name", $first->client("setname", "php"), true);
holds("name", $first->client("getname"), "php");

$other = connected(5);
holds("other database", $other->get("key"), false);
$pipeline = $other->multi(Redis::PIPELINE);
$wanted = [];
for ($number = 0; $number < 500; $number++) {
    $pipeline->set("key:$number", $number);
    $pipeline->get("key:$number");
    array_push($wanted, true, "$number");
}
holds("pipeline", $pipeline->exec(), $wanted);
holds("keys", $other->dbSize(), 500);
holds("only if absent", $other->set("key:0", "x", ["nx"]), false);
holds("del", $other->del("key:0", "key:1", "none"), 2);
holds("database 16", $other->select(16), false);
holds("error", rtrim((string) $other->getLastError(), "\0"), "ERR DB index is out of range");
holds("flushdb", $other->flushDB(), true);
holds("databases", [$other->dbSize(), $first->dbSize()], [0, 1]);
holds("flushall", $first->flushAll(), true);
holds("nothing", $first->dbSize(), 0);
