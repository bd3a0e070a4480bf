<?php
// Tests `resp serve --test-server` with Predis: predis.php PORT. The server must have no key.
require "Predis/Autoloader.php";
Predis\Autoloader::register();

function holds(string $name, mixed $got, mixed $wanted): void
{
    if ($got !== $wanted) {
        fwrite(STDERR, "$name: " . var_export($got, true) . "\n");
        exit(1);
    }
}

function connected(int $database): Predis\Client
{
    global $argv;
    return new Predis\Client(["host" => "127.0.0.1", "port" => (int) $argv[1], "database" => $database]);
}

$first = connected(0);
$bytes = "\x00\r\n\xff";
holds("set", (string) $first->set("key", $bytes), "OK");
holds("get", $first->get("key"), $bytes);
holds("no value", $first->get("none"), null);
holds("exists", $first->exists("key"), 1);
holds("dbsize", $first->dbsize(), 1);

$other = connected(5);
holds("other database", $other->get("key"), null);
$said = $other->pipeline(function ($pipeline) {
    for ($number = 0; $number < 500; $number++) {
        $pipeline->set("key:$number", $number);
        $pipeline->get("key:$number");
    }
});
$wanted = [];
for ($number = 0; $number < 500; $number++) {
    array_push($wanted, "OK", "$number");
}
holds("pipeline", array_map("strval", $said), $wanted);
holds("keys", $other->dbsize(), 500);
holds("only if absent", $other->set("key:0", "x", "NX"), null);
holds("del", $other->del("key:0", "key:1", "none"), 2);
try {
    $other->select(16);
    holds("database 16", true, false);
} catch (Predis\Response\ServerException $error) {
    holds("error", $error->getMessage(), "ERR DB index is out of range");
}
holds("flushdb", (string) $other->flushdb(), "OK");
holds("databases", [$other->dbsize(), $first->dbsize()], [0, 1]);
holds("flushall", (string) $first->flushall(), "OK");
holds("nothing", $first->dbsize(), 0);
