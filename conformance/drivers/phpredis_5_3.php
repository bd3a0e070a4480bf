<?php
/* phpredis 5.3 (php-redis): rawCommand over a socket.
 * needs: php /usr/share/doc/php8.2-redis
 * run: php {FILE} */
if (($argv[1] ?? '') === '--about') {
    echo '{"parser": "phpredis 5.3.7", "profiles": ["resp2"], "feeds": ["whole", "joined"], ',
        '"same": [["null", "nullbulk", "nullarray"], ["bulk", "simple"]]}', "\n";
    exit;
}

function latin1($text)
{
    return preg_replace_callback('/[\x80-\xff]/', fn($it) => chr(192 | ord($it[0]) >> 6) . chr(128 | ord($it[0]) & 63), (string) $text);
}

/* A null and, inside an array, an error are false. */
function told($value)
{
    if ($value === false || $value === null) return ['null'];
    if (is_int($value)) return ['integer', (string) $value];
    if (is_array($value)) return ['array', array_map('told', $value)];
    return ['bulk', latin1($value)];
}

$server = stream_socket_server('tcp://127.0.0.1:0');
$port = (int) substr(strrchr(stream_socket_get_name($server, false), ':'), 1);

while (($line = fgets(STDIN)) !== false) {
    [$id, , $pieces] = explode(' ', rtrim($line, "\n"), 3);
    $redis = new Redis();
    $redis->connect('127.0.0.1', $port, 1, null, 0, 0.03);
    $redis->setOption(Redis::OPT_REPLY_LITERAL, true);
    $connection = stream_socket_accept($server);
    foreach (explode(',', $pieces) as $piece) {
        fwrite($connection, hex2bin($piece));
    }
    $values = [];
    $end = 'more';
    while (true) {
        $redis->clearLastError();
        try {
            $value = @$redis->rawCommand('GET', 'k');
            $error = $redis->getLastError();
            $values[] = $error === null || is_array($value) ? told($value) : ['error', latin1($error)];
        } catch (RedisException $failure) {
            // Most errors of the server are thrown, and the caller goes on.
            if ($failure->getMessage() === $redis->getLastError()) {
                $values[] = ['error', latin1($failure->getMessage())];
                continue;
            }
            // A read that waits in vain inside an array is told as the byte 0.
            $end = preg_match('/protocol error, got \'[^\0]\'/', $failure->getMessage()) ? 'error' : 'more';
            break;
        }
    }
    fclose($connection);
    echo json_encode(['id' => $id, 'values' => $values, 'end' => $end]), "\n";
}
